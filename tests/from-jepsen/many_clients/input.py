"""A hundred clients; five work at once. Client 7 crashes, and goes on as process 107."""


def event(kind, process, name, part):
    print(f"{{:type :{kind}, :process {process}, :f :{name}, :value [0 {part}]}}")


for first in range(0, 100, 5):
    event("invoke", first, "write", first)
    for process in range(first + 1, first + 5):
        event("invoke", process, "read", "nil")
    for process in range(first, first + 5):
        event("info" if process == 7 else "ok", process, "write" if process == first else "read", first if process != 7 else "nil")
event("invoke", 107, "read", "nil")
event("ok", 107, "read", 95)
