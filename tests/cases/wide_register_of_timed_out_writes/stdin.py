"""2,000 writes time out; each hundredth is read, and the last read repeats an older one."""
for n in range(2000):
    print(f"{{:type :invoke, :process {2 * n}, :f :write, :value [7 {n}]}}")
    print(f"{{:type :info, :process {2 * n}, :f :write, :value [7 {n}]}}")
    if n % 100 == 99:
        print("{:type :invoke, :process 1, :f :read, :value [7 nil]}")
        print(f"{{:type :ok, :process 1, :f :read, :value [7 {n // 2}]}}")
print("{:type :invoke, :process 1, :f :read, :value [7 nil]}")
print("{:type :ok, :process 1, :f :read, :value [7 49]}")
