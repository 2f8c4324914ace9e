"""Live tests: the Monitor, and the modules that it imports."""
