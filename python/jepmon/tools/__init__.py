"""Common parts of the package's commands."""
