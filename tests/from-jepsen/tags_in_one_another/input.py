"""A thousand tags before one element."""
print("#a " * 1000 + "{:type :invoke, :process 0, :f :write, :value [0 1]}")
