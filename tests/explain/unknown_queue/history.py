"""Messages that are sent two at a time, and nobody who receives them."""
for value in range(0, 40, 2):
    for kind in ("invoke", "ok"):
        for process in (0, 1):
            print(f"{{:type :{kind}, :process {process}, :f :enqueue, :value [0 {value + process}]}}")
