%% Measures operations, each of two events: a write or a read of a key of the process's own. bench:main([false, 5, 100000]): waits, processes,
%% operations.
-module(bench).
-export([main/1]).

main([Waits, Count, Operations]) ->
    {ok, M} = jepmon:start_link(#{wait => Waits}),
    Rates = [begin
        Begun = erlang:monotonic_time(microsecond),
        All = [spawn_monitor(fun() -> client(M, N * 64, 0, Operations div Count) end) || N <- lists:seq(0, Count - 1)],
        [receive {'DOWN', Ref, _, _, normal} -> ok end || {_, Ref} <- All],
        ok = jepmon:reset(M),
        2 * Operations * 1000000 div (erlang:monotonic_time(microsecond) - Begun)
    end || _ <- lists:seq(1, 3)],
    legal = jepmon:close(M),
    io:format("~b events a second~n", [lists:max(Rates)]),
    halt(0).

client(_, _, Each, Each) -> ok;
client(M, First, I, Each) ->
    Key = First + I div 2 rem 64,
    {What, End} = case I rem 2 of 0 -> {{write, Key, I}, ok}; 1 -> {{read, Key}, {value, I - 1}} end,
    {ok, Operation} = jepmon:invoke(M, What),
    ok = jepmon:complete(M, Operation, End),
    client(M, First, I + 1, Each).
