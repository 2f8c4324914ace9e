"""The known servers, a file for each: its start, the protocol of its clients, and the meaning of errors."""
