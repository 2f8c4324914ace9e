"""Scripts that try the program and its tools, each on its own; and in python/ the tests of the package."""
