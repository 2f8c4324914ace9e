"""A verdict, a line too long, and another verdict."""
print("[:verdict]\n" + " " * 65537 + "\n[:verdict]")
