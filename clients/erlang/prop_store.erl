%% PropEr draws what three clients do at once, jepmon judges it, and PropEr makes commands that fail smaller.
-module(prop_store).
-include_lib("proper/include/proper.hrl").
-export([main/0]).

command() ->
    Key = range(0, 1),
    oneof([{write, Key, range(1, 5)}, {cas, Key, range(1, 5), range(1, 5)}, {read, Key}]).

%% A store whose cas looks and then writes, which is not atomic, or one without this fault.
do(_, {write, Key, Value}) -> ets:insert(store, {Key, Value}), ok;
do(_, {read, Key}) -> [{_, Value}] = ets:lookup(store, Key), {value, Value};
do(false, {cas, Key, Old, New}) ->
    case ets:select_replace(store, [{{Key, Old}, [], [{const, {Key, New}}]}]) of 1 -> ok; 0 -> fail end;
do(true, {cas, Key, Old, New}) ->
    case ets:lookup(store, Key) of
        [{_, Old}] -> erlang:yield(), ets:insert(store, {Key, New}), ok;
        _ -> fail
    end.

%% Each case ten times, since the scheduler has its say too.
prop_linearizable(Fault) ->
    ?FORALL(Clients, vector(3, list(command())), lists:all(fun(_) -> is_legal(Fault, Clients) end, lists:seq(1, 10))).

is_legal(Fault, Clients) ->
    {ok, M} = case whereis(judge) of
        undefined -> {ok, New} = jepmon:start(#{model => 'cas-register', initial => 0}), register(judge, New), {ok, New};
        Old -> {ok, Old}
    end,
    ets:insert(store, [{0, 0}, {1, 0}]),
    All = [spawn_monitor(fun() -> [catch jepmon:operation(M, Command, fun() -> do(Fault, Command) end) || Command <- Commands] end) || Commands <- Clients],
    [receive {'DOWN', Ref, _, _, _} -> ok end || {_, Ref} <- All],
    case jepmon:reset(M) of                                    % the next history, in the same program
        ok -> true;
        {verdict, #{status := illegal}} -> unregister(judge), {verdict, _} = jepmon:close(M), false
    end.

main() ->
    ets:new(store, [named_table, public]),
    Good = proper:quickcheck(prop_linearizable(false), [{numtests, 30}, quiet]),
    Bad = proper:quickcheck(prop_linearizable(true), [{numtests, 1000}, quiet]),
    io:format("a good store: ~p; a cas that is not atomic: ~p, by ~p~n", [Good, Bad, proper:counterexample()]),
    halt(case {Good, Bad} of {true, false} -> 0; _ -> 1 end).
