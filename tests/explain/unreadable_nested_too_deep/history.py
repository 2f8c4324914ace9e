"""Two thousand vectors in one another."""
print("; a comment")
print("[" * 2000 + "]" * 2000)
