"""Lines that end as on Windows."""
for kind in ("invoke", "ok"):
    print(f"{{:type :{kind}, :process 0, :f :write, :value [0 1]}}", end="\r\n")
