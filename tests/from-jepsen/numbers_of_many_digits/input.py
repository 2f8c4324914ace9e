"""A value and a key of 5,000 digits, and an index that is none of 64 bits."""
many = "9" * 5000
for kind in ("invoke", "ok"):
    print(f"{{:index {many}, :type :{kind}, :process 0, :f :write, :value [{many} {many}1]}}")
