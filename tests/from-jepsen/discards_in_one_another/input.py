"""A thousand discards, each within the one before."""
print("#_ " * 1000 + "1 " * 1000)
