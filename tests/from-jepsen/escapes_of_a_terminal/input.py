"""Characters that a terminal would obey are shown by their code."""
print("\x1b[31mred\x07")
