"""Two thousand discards, each within the one before, and then an event."""
print("#_ " * 2000 + "1 " * 2000 + "{:type :invoke, :process 0, :f :read, :value [1 nil]}")
