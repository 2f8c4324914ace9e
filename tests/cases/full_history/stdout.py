"""A verdict for each event that the history holds, and then a refusal."""
print("legal\n" * 2**20 + "refused 7 HistoryFull\n", end="")
