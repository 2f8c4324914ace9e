"""Events whose lines have 65,536 bytes, and one more, nearly all of them at another key."""
EVENT = '{{:type :{}, :process 0, :f :write, :value [7 1], :error {}}}'


def line(kind: str, before: str, after: str, fill: str, size: int) -> str:
    room = size - len(EVENT.format(kind, before + after))
    return EVENT.format(kind, before + fill * (room // len(fill)) + " " * (room % len(fill)) + after)


print(line("invoke", '[:timeout "', '"]', "refused \\n", 65_536))
print(line("ok", '[:timeout "', '"]', "refused \\n", 65_537))
print(line("ok", "[", "]", "[nil -12] ", 65_536))
print(line("invoke", "[", "]", "[nil -12] ", 65_537))
print(line("invoke", '"', '"', "\\\\", 65_536))
print(line("ok", '{:a "', '\\" }', "\\\\", 65_536))
