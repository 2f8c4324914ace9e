"""Sixty-five operations that are open at once."""
for process in range(65):
    print(f"{{:type :invoke, :process {process}, :f :write, :value [0 1]}}")
