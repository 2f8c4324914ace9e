"""2^20 events of one client, and one more."""
invoke = "{:type :invoke, :process 0, :f :write, :value [7 1]}\n"
done = "{:type :ok, :process 0, :f :write, :value [7 1]}\n"
print((invoke + done) * 2**19 + invoke, end="")
