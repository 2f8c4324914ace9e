# elixir -pa FOLDER jepmon_test.exs, where FOLDER has jepmon.beam
ExUnit.start(colors: [enabled: false])

defmodule JepmonTest do
  use ExUnit.Case

  setup do
    {:ok, monitor} = :jepmon.start_link(%{model: :register, initial: 0})
    {:ok, monitor: monitor, store: start_supervised!({Agent, fn -> %{1 => 0, :puts => 0} end})}
  end

  # Each fifth write of a store with the fault is lost.
  defp put(store, value, fault) do
    Agent.update(store, fn s ->
      n = s.puts + 1
      if fault and rem(n, 5) == 0, do: %{s | puts: n}, else: %{s | 1 => value, puts: n}
    end)
  end

  defp client(monitor, store, number, fault) do
    for i <- 1..30 do
      :jepmon.operation(monitor, {:write, 1, number * 1000 + i}, fn -> put(store, number * 1000 + i, fault) end)
      :jepmon.operation(monitor, {:read, 1}, fn -> {:value, Agent.get(store, & &1[1])} end)
    end
  end

  test "a good store", %{monitor: monitor, store: store} do
    1..3 |> Enum.map(&Task.async(fn -> client(monitor, store, &1, false) end)) |> Task.await_many(60_000)
    assert :jepmon.close(monitor) == :legal
  end

  test "a store that loses writes", %{monitor: monitor, store: store} do
    # Nobody waits for a reply, so the client may end before the verdict on its last events comes.
    try do
      client(monitor, store, 1, true)
    catch
      _, _ -> :stopped
    end

    assert {:verdict, %{status: :illegal, key: 1}} = :jepmon.close(monitor)
  end

  test "an exception is an unknown outcome", %{monitor: monitor} do
    assert catch_error(:jepmon.operation(monitor, {:write, 1, 5}, fn -> raise "timeout" end))
    :jepmon.operation(monitor, {:read, 1}, fn -> {:value, 5} end)
    assert :jepmon.counts(monitor) == %{{:write, :info} => 1, {:read, :ok} => 1}
    assert :jepmon.close(monitor) == :legal
  end
end
