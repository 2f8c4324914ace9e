"""Causes in words, one module for each sort of object, and one for unknown keys."""
