%% Runs the scenarios of clients/conformance, whose words clients/README.md explains.
-module(conformance).
-export([main/1]).

main([Table]) ->
    process_flag(trap_exit, true),
    {ok, Text} = file:read_file(filename:join(Table, "scenarios.txt")),
    Lines = [string:lexemes(Line, " ") || Line <- string:lexemes(binary_to_list(Text), "\n"), hd(Line) =/= $#],
    Program = os:getenv("JEPMON", filename:join(Table, "../../dist/jepmon")),
    {match, [Minor]} = re:run(os:cmd("'" ++ Program ++ "' --version"), "^jepmon \\d+\\.(\\d+)", [{capture, all_but_first, list}]),
    Results = [result(Table, Scenario, Wait) || Scenario <- scenarios(Lines, []), since(Scenario) =< list_to_integer(Minor), Wait <- [false, true],
        not (Wait andalso lists:member(["waiting", "no"], Scenario))],
    Failed = length([R || R <- Results, R =/= ok]),
    io:format("~b passed, ~b failed~n", [length(Results) - Failed, Failed]),
    halt(min(1, Failed)).

scenarios([], All) -> lists:reverse([lists:reverse(Scenario) || Scenario <- All]);
scenarios([["scenario" | _] = Line | More], All) -> scenarios(More, [[Line] | All]);
scenarios([Line | More], [Last | All]) -> scenarios(More, [[Line | Last] | All]).

%% The minor version of the program that the scenario needs, or 0.
since(Scenario) -> lists:sum([list_to_integer(Minor) || ["since", Minor] <- Scenario]).

result(Table, [["scenario", Name] | _] = Scenario, Wait) ->
    Result = try run(Table, Scenario, Wait) catch C:E:S -> {C, E, S} end,
    Full = Name ++ case Wait of true -> "_waiting"; false -> "" end,
    case Result of
        ok -> io:format("conformance ~s: ok~n", [Full]);
        _ -> io:format("conformance ~s: FAILED: ~p~n", [Full, Result])
    end,
    Result.

options(Table, Scenario, Wait) ->
    lists:foldl(fun
        (["model", M], O) -> O#{model => list_to_atom(M)};
        ([Word, N], O) when Word =:= "concurrency"; Word =:= "budget"; Word =:= "initial"; Word =:= "timeout" -> O#{list_to_atom(Word) => list_to_integer(N)};
        (["by-ends", _], O) -> O#{by_ends => true};
        (["unknown", _], O) -> O#{go_on => true};
        (["program", P], O) -> O#{program => filename:absname(filename:join([Table, "programs", P]))};
        (_, O) -> O
    end, #{wait => Wait, out => os:getenv("JEPMON_OUT", "/tmp")}, Scenario).

run(Table, Scenario, Wait) ->
    {Verdict, Counts} = case jepmon:start_link(options(Table, Scenario, Wait)) of
        {error, Refused} -> {Refused, #{}};
        {ok, M} ->
            Ended = steps(M, Scenario, #{}),
            C = jepmon:counts(M),
            case {jepmon:close(M), Ended} of
                {legal, ok} -> {#{reply => <<"legal">>}, C};
                {{verdict, Given}, _} -> {Given, C}
            end
    end,
    case [{Line, Verdict, Counts} || Line <- Scenario, not fits(Line, Verdict, Counts)] of [] -> ok; Wrong -> Wrong end.

fits(["says" | Words], Verdict, _) -> string:find(jepmon:text(Verdict), lists:join(" ", Words)) =/= nomatch;
fits(["expect", "refused" | Words], #{reply := Reply}, _) ->
    string:prefix(Reply, "refused") =/= nomatch andalso string:find(Reply, lists:join(" ", Words)) =/= nomatch;
fits(["expect", Word, Key, Index], #{reply := Reply}, _) -> string:prefix(Reply, lists:join(" ", [Word, "key", Key, "index", Index])) =/= nomatch;
fits(["expect", Word], #{reply := Reply}, _) -> string:prefix(Reply, Word) =/= nomatch;
fits(["count", F, Outcome, N], _, Counts) -> maps:get({list_to_atom(F), list_to_atom(Outcome)}, Counts, 0) =:= list_to_integer(N);
fits(_, _, _) -> true.

%% Up to the verdict that ends the test.
steps(_, [], _) -> ok;
steps(M, [Line | More], Operations) ->
    case step(M, Line, Operations) of
        {mistake, Text} -> error({mistake, Line, Text});
        {verdict, _} -> ended;
        {ok, Next} -> steps(M, More, Next)
    end.

step(M, ["rejected" | Words], Operations) -> {mistake, _} = use(M, Words), {ok, Operations};
step(M, ["invoke", A | Words], Operations) ->
    case use(M, Words) of {ok, Operation} -> {ok, Operations#{A => Operation}}; Other -> Other end;
step(M, [Word | _] = Words, Operations) when Word =:= "reset"; Word =:= "begin" -> done(use(M, Words), Operations);
step(M, ["clients", C, _, N, _, K | More], Operations) ->
    Loses = case More of ["loses", L] -> list_to_integer(L); [] -> 0 end,
    done(clients(M, list_to_integer(C), list_to_integer(N), list_to_integer(K), Loses), Operations);
step(M, ["parts", P, _, N], Operations) ->
    [Parts, Each] = [list_to_integer(W) || W <- string:lexemes(os:getenv("JEPMON_PARTS", P ++ " " ++ N), " ")],
    done(parts(M, Parts, Each), Operations);
step(M, [Word, A | Words], Operations) when is_map_key(A, Operations) ->
    Numbers = [list_to_integer(W) || W <- Words],
    End = case Word of
        "value" -> {value, hd(Numbers)};
        "values" -> {values, Numbers};
        _ -> list_to_atom(Word)
    end,
    done(jepmon:complete(M, map_get(A, Operations), End), Operations);
step(_, _, Operations) -> {ok, Operations}.

done(ok, Operations) -> {ok, Operations};
done(Other, _) -> Other.

use(M, ["reset"]) -> jepmon:reset(M);
use(M, ["begin", Key, Value]) -> jepmon:begin_key(M, list_to_integer(Key), list_to_integer(Value));
use(M, [F | Words]) -> jepmon:invoke(M, list_to_tuple([list_to_atom(F) | [list_to_integer(W) || W <- Words]])).

%% Has processes write and read a store, which may lose some writes.
clients(M, Count, Each, Keys, Loses) ->
    Store = ets:new(store, [public]),
    ets:insert(Store, {writes, 0}),
    All = [spawn_monitor(fun() -> exit(client(M, Store, Client, 0, Each, Keys, Loses)) end) || Client <- lists:seq(0, Count - 1)],
    Ends = [receive {'DOWN', Ref, _, _, End} -> End end || {_, Ref} <- All],
    case [End || End <- Ends, End =/= ok] of [] -> ok; [First | _] -> First end.

client(_, _, _, Each, Each, _, _) -> ok;
client(M, Store, Client, I, Each, Keys, Loses) ->
    Key = (Client * 7 + I div 2) rem Keys,
    {What, Work} = case I rem 2 of
        0 -> {{write, Key, Client * Each + I}, fun() ->
                N = ets:update_counter(Store, writes, 1),
                Loses > 0 andalso N rem Loses =:= 0 orelse ets:insert(Store, {Key, Client * Each + I})
            end};
        1 -> {{read, Key}, fun() -> case ets:lookup(Store, Key) of [{_, V}] -> {value, V}; [] -> missing end end}
    end,
    try jepmon:operation(M, What, Work) of
        _ -> client(M, Store, Client, I + 1, Each, Keys, Loses)
    catch error:{jepmon, Verdict} -> {verdict, Verdict}
    end.

%% One history after another. JEPMON_PARTS="20 500000" makes it ten million operations.
parts(_, 0, _) -> ok;
parts(M, Parts, Each) ->
    [begin
        {ok, Write} = jepmon:invoke(M, {write, I rem 64, I}), ok = jepmon:complete(M, Write, ok),
        {ok, Read} = jepmon:invoke(M, {read, I rem 64}), ok = jepmon:complete(M, Read, {value, I})
    end || I <- lists:seq(1, Each div 2)],
    case jepmon:reset(M) of ok -> parts(M, Parts - 1, Each); Other -> Other end.
