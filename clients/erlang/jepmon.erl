%% Judges live, in the test that drives them, whether what processes do is linearizable. It drives the program `jepmon script`, and
%% needs Linux.
%%
%%     {ok, M} = jepmon:start_link(#{model => register}),
%%     jepmon:operation(M, {write, 7, 3}, fun() -> ok = store:put(7, 3) end),              % an exception: the outcome is unknown
%%     jepmon:operation(M, {read, 7}, fun() -> {value, store:get(7)} end),
%%     legal = jepmon:close(M)
%%
%% The mailbox of the server is the order of the history. An invocation is a call, since it has to stand before the request; a completion
%% is a cast, since a late one makes an operation look longer, which never makes a false alarm. With `wait` each event waits for its reply.
%%
%% Options: program, model, concurrency, budget, by_ends, wait, initial, go_on, timeout (seconds), out. Each model but mutex is judged as its wide
%% kind, as wide-register, if the program has it: fewer outcomes count against the budget. by_ends turns that off. A fifo queue is judged by its
%% ends from its second enqueue of one value on, unless the first one has failed. An operation is {read, Key}, {write, Key, Value}, {cas, Key, Old, New}, {add, Key, Member}, {enqueue, Key, Message}, {dequeue, Key}, {acquire, Key} or {release, Key}. It ends by ok,
%% {value, V}, missing, {values, List}, fail or info.
-module(jepmon).
-behaviour(gen_server).
-export([start_link/1, start/1, operation/3, invoke/2, complete/3, begin_key/3, reset/1, counts/1, failure/1, close/1, text/1]).
-export([init/1, handle_continue/2, handle_call/3, handle_cast/2, handle_info/2, terminate/2]).

-define(ABSENT, -(1 bsl 63)).    % the value of a missing key
-define(MOST, 1 bsl 20).         % bytes that wait for the program: if there are more, invocations wait
-record(s, {options, program, about, kind, by_ends = #{}, sent = #{}, port, writer, folder, buffer = [], size = 0, writing = true, kept = [], lines = 0, replies = 0,
    free, processes, open = #{}, begun = #{}, counts = #{}, last = <<"legal">>, bad = none, unknown = none, refusal = none,
    closer = none, resetter = none, waiting = [], delayed = [], progress = 0, partial = <<>>}).

%% --- For tests ---

%% {error, Verdict} says why the program can't be used.
start_link(Options) -> started(gen_server:start_link(?MODULE, Options, [])).
start(Options) -> started(gen_server:start(?MODULE, Options, [])).

started({ok, M}) ->
    case gen_server:call(M, started, infinity) of
        legal -> {ok, M};
        Verdict -> unlink(M), gen_server:stop(M), {error, Verdict}
    end;
started({error, Why}) -> {error, Why}.

%% Does an operation by a function, which gives how it ended; anything else than an end is ok. Raises {jepmon, Verdict} if the history is
%% not legal, and {jepmon, mistake, Text} for a mistake of the test. After an exception of the function the outcome is unknown.
operation(M, What, Fun) ->
    Operation = good(invoke(M, What)),
    try Fun() of
        End -> good(complete(M, Operation, End)), End
    catch Class:Reason:Stack ->
        complete(M, Operation, info),
        erlang:raise(Class, Reason, Stack)
    end.

good({ok, Operation}) -> Operation;
good(ok) -> ok;
good({verdict, Verdict}) -> error({jepmon, Verdict});
good({mistake, Text}) -> error({jepmon, mistake, Text}).

%% {ok, Operation}, {verdict, V} or {mistake, Text}, which changes nothing.
invoke(M, What) -> gen_server:call(M, {invoke, What}, infinity).

%% ok, {verdict, V} or {mistake, Text}. Without `wait` it is ok at once.
complete(M, {_, _, _, Wait} = Operation, End) ->
    case Wait of
        true -> gen_server:call(M, {complete, Operation, End}, infinity);
        false -> gen_server:cast(M, {complete, Operation, End})
    end.

%% Says what a register holds before its first operation.
begin_key(M, Key, Value) -> gen_server:call(M, {begin_key, Key, Value}, infinity).

%% Begins a new history in the same program, and waits for the verdict on the one before. No operation may be open.
reset(M) -> gen_server:call(M, reset, infinity).

%% How many operations ended how, as #{{write, ok} => 3}, and how many are open, as {write, open}.
counts(M) -> gen_server:call(M, counts, infinity).

%% The verdict that has ended the test, or none.
failure(M) -> gen_server:call(M, failure, infinity).

%% Ends the program: legal if each line got its reply and all is legal, else {verdict, V}.
close(M) ->
    Verdict = gen_server:call(M, close, infinity),
    unlink(M),
    gen_server:stop(M),
    Verdict.

%% The text of a verdict, or of what close gives.
text(legal) -> <<"legal">>;
text({verdict, Verdict}) -> text(Verdict);
text(#{reply := Reply} = Verdict) ->
    Lines = maps:get(tail, Verdict, []) ++ [Hint || #{hint := Hint} <- [Verdict]] ++ [["also ", Other] || Other <- maps:get(also, Verdict, [])]
        ++ maps:get(cause, Verdict, []) ++ [["history: ", File] || #{history := File} <- [Verdict]],
    iolist_to_binary([Reply | [["\n  ", Line] || Line <- Lines]]).

%% --- The server ---

init(Given) ->
    process_flag(trap_exit, true),
    Merged = maps:merge(#{model => register, budget => 0, by_ends => false, wait => false, initial => ?ABSENT, go_on => false,
        timeout => 60}, Given),
    {ok, #s{options = maps:update_with(model, fun jepmon_program:model/1, Merged), free = [], processes = #{}}, {continue, start}}.

%% The process of each thread in a history without events.
processes(#{concurrency := N}) -> maps:from_list([{T, T} || T <- lists:seq(0, N - 1)]).

handle_continue(start, S) ->
    Program = jepmon_program:find(S#s.options),
    case jepmon_program:hello(Program, timeout(S)) of
        {ok, About} ->
            Options = maps:merge(#{concurrency => min(64, maps:get(clients, About))}, S#s.options),
            Processes = processes(Options),
            Kind = jepmon_program:kind(Options, About),
            {Port, Writer, Folder} = jepmon_program:start(Program, Kind, Options),
            erlang:send_after(timeout(S) div 10, self(), look),
            {noreply, command(S#s{options = Options, free = lists:sort(maps:keys(Processes)), processes = Processes, program = Program, about = About,
                kind = Kind, port = Port, writer = Writer, folder = Folder}, <<"[:verdict]\n">>)};
        {error, Why} -> {noreply, fail(S#s{program = Program}, refused(Why))}
    end.

timeout(S) -> 1000 * maps:get(timeout, S#s.options).

handle_call(started, From, S) -> {noreply, settle(S, From, legal)};
handle_call(failure, _, S) -> {reply, S#s.bad, S};
handle_call(counts, _, S) ->
    Open = maps:fold(fun(_, F, All) -> add({F, open}, All) end, #{}, S#s.open),
    {reply, maps:merge(S#s.counts, Open), S};
handle_call(close, From, S) -> {noreply, at_end(write_more(S#s{closer = From}))};
handle_call(_, _, S = #s{bad = Bad}) when Bad =/= none -> {reply, {verdict, Bad}, S};
handle_call(_, _, S = #s{closer = Closer}) when Closer =/= none -> {reply, {mistake, "the monitor is closed"}, S};
handle_call(Request, From, S = #s{resetter = R, size = Size}) when R =/= none; Size > ?MOST ->
    {noreply, S#s{delayed = [{Request, From} | S#s.delayed]}};
handle_call(reset, From, S) ->
    case maps:size(S#s.open) of
        0 -> {noreply, (command(S, <<"[:rewind 0]\n">>))#s{resetter = From}};
        N -> {reply, {mistake, io_lib:format("~b operations are open: a reset waits for none", [N])}, S}
    end;
handle_call({begin_key, Key, Value}, From, S) ->
    case mistake(S, write, Key) of
        none when is_map_key(Key, S#s.begun); S#s.free =:= [] -> {reply, {mistake, io_lib:format("key ~b has begun", [Key])}, S};
        none -> {noreply, settle(begun(S, Key, Value), From, ok)};
        Text -> {reply, {mistake, Text}, S}
    end;
handle_call({invoke, What}, From, S) ->
    [F, Key | Values] = tuple_to_list(What),
    case {mistake(S, F, Key), S#s.free} of
        {none, []} ->
            Most = maps:get(clients, S#s.about),
            {reply, {mistake, io_lib:format("too many operations are open at once: raise concurrency, ~b at most", [Most])}, S};
        {none, [Thread | Free]} ->
            S1 = case is_register(S) andalso not is_map_key(Key, S#s.begun) of
                true -> begun(S, Key, maps:get(initial, S#s.options));
                false -> S
            end,
            Operation = {Thread, make_ref(), {F, Key, part(Values)}, maps:get(wait, S#s.options)},
            S2 = event((sending(S1, F, Key, Values))#s{free = Free, open = (S1#s.open)#{Operation => F}}, invoke, Thread, F, Key, part(Values)),
            {noreply, settle(S2, From, {ok, Operation})};
        {Text, _} -> {reply, {mistake, Text}, S}
    end;
handle_call({complete, Operation, End}, From, S) ->
    case is_map_key(Operation, S#s.open) of
        true -> {noreply, settle(completed(S, Operation, End), From, ok)};
        false -> {reply, {mistake, "the operation has ended already"}, S}
    end.

handle_cast({complete, Operation, End}, S = #s{bad = none, closer = none}) when is_map_key(Operation, S#s.open) ->
    {noreply, completed(S, Operation, End)};
handle_cast(_, S) -> {noreply, S}.

handle_info({Port, {data, {eol, _}}}, S = #s{port = Port, bad = Bad}) when Bad =/= none -> {noreply, S};
handle_info({Port, {data, {eol, Line}}}, S = #s{port = Port}) -> {noreply, again(at_end(replied(S, <<(S#s.partial)/binary, Line/binary>>)))};
handle_info({Port, {data, {noeol, Line}}}, S = #s{port = Port}) -> {noreply, S#s{partial = <<(S#s.partial)/binary, Line/binary>>}};
handle_info({Port, {exit_status, Status}}, S = #s{port = Port}) -> {noreply, at_end(exited(S#s{port = none}, Status))};
handle_info(written, S) -> {noreply, again(write_more(S#s{writing = false}))};
handle_info(look, S = #s{port = none}) -> {noreply, S};
handle_info(look, S) ->
    erlang:send_after(timeout(S) div 10, self(), look),
    Idle = S#s.replies =:= S#s.lines andalso S#s.closer =:= none,
    case S#s.progress of
        {Replies, Since} when Replies =:= S#s.replies, not Idle ->
            case erlang:monotonic_time(millisecond) - Since > timeout(S) of
                true -> {noreply, at_end(fail(S, refused(io_lib:format("jepmon gave no reply for ~b seconds, after ~b replies to ~b lines: lines "
                    "take long if many clients share a key, so use more keys, or a greater timeout", [maps:get(timeout, S#s.options), S#s.replies, S#s.lines]))))};
                false -> {noreply, S}
            end;
        _ -> {noreply, S#s{progress = {S#s.replies, erlang:monotonic_time(millisecond)}}}
    end;
handle_info(kill, S) -> {noreply, kill(S)};
handle_info(_, S) -> {noreply, S}.

terminate(_, S) ->
    kill(S),
    jepmon_program:remove(S#s.writer, S#s.folder).

kill(S = #s{port = none}) -> S;
kill(S = #s{port = undefined}) -> S;
kill(S) -> jepmon_program:kill(S#s.port), S.

%% --- Lines ---

%% Appends a line. The writer takes all lines that were appended since its last write.
command(S, Text) ->
    S1 = S#s{buffer = [S#s.buffer, Text], size = S#s.size + iolist_size(Text), lines = S#s.lines + 1},
    case S1#s.writing orelse S1#s.writer =:= undefined of true -> S1; false -> write_more(S1) end.

write_more(S = #s{bad = Bad}) when Bad =/= none -> S;
write_more(S = #s{writing = true}) -> S;
write_more(S = #s{size = 0, closer = none}) -> S;
write_more(S = #s{size = 0}) -> S#s.writer ! close, S#s{writing = true};
write_more(S) ->
    Piece = iolist_to_binary(S#s.buffer),
    S#s.writer ! {write, Piece},
    S#s{writing = true, buffer = [], size = 0, kept = [Piece | S#s.kept]}.

event(S, Kind, Thread, F, Key, Part) ->
    command(S, [<<"{:type :">>, atom_to_binary(Kind), <<" :process ">>, integer_to_binary(map_get(Thread, S#s.processes)), <<" :f :">>,
        atom_to_binary(F), <<" :value [">>, integer_to_binary(Key), $\s, Part, <<"]}\n">>]).

%% Takes note of a message. The kind wide-fifo-queue is over as soon as two enqueues of one value have not failed, so such a queue is judged by
%% its ends from its second enqueue of the value on.
sending(S = #s{kind = 'wide-fifo-queue', by_ends = ByEnds}, enqueue, Key, [Value]) when not is_map_key(Key, ByEnds) ->
    case S#s.sent of
        #{{Key, Value} := true} -> command(S#s{by_ends = ByEnds#{Key => true}}, [io_lib:format("[:model ~b :fifo-queue]\n", [Key])]);
        Sent -> S#s{sent = Sent#{{Key, Value} => true}}
    end;
sending(S, _, _, _) -> S.

%% Forgets a message whose enqueue has failed.
not_sent(S = #s{kind = 'wide-fifo-queue'}, {enqueue, Key, Part}) -> S#s{sent = maps:remove({Key, binary_to_integer(Part)}, S#s.sent)};
not_sent(S, _) -> S.

part([]) -> <<"nil">>;
part([Value]) -> integer_to_binary(Value);
part([Old, New]) -> [$[, integer_to_binary(Old), $\s, integer_to_binary(New), $]].

begun(S = #s{free = [Thread | _]}, Key, Value) ->
    S1 = event(S#s{begun = (S#s.begun)#{Key => true}}, invoke, Thread, write, Key, part([Value])),
    event(S1, ok, Thread, write, Key, part([Value])).

completed(S, {Thread, _, {F, Key, Part}, _} = Operation, End) ->
    {Outcome, Answer} = case End of
        fail -> {fail, Part};
        info -> {info, Part};
        missing when F =:= dequeue -> {fail, Part};
        missing -> {ok, part([?ABSENT])};
        {value, undefined} when F =:= dequeue -> {fail, Part};
        {value, undefined} -> {ok, part([?ABSENT])};
        {value, Value} -> {ok, part([Value])};
        {values, Members} -> {ok, ["#{", lists:join($\s, [integer_to_binary(V) || V <- lists:usort(Members)]), $}]};
        _ -> {ok, Part}
    end,
    Noted = case Outcome of fail -> not_sent(S, {F, Key, Part}); _ -> S end,
    S1 = event(Noted#s{open = maps:remove(Operation, S#s.open), counts = add({F, Outcome}, S#s.counts)}, Outcome, Thread, F, Key, Answer),
    Processes = case Outcome of
        info -> maps:update_with(Thread, fun(P) -> P + maps:get(concurrency, S#s.options) end, S1#s.processes);
        _ -> S1#s.processes
    end,
    S1#s{free = [Thread | S1#s.free], processes = Processes}.

add(What, Counts) -> maps:update_with(What, fun(N) -> N + 1 end, 1, Counts).

is_register(S) -> lists:member(maps:get(model, S#s.options), [register, 'cas-register']).

mistake(S, F, Key) ->
    Model = maps:get(model, S#s.options),
    Known = case Model of
        register -> [read, write];
        'cas-register' -> [read, write, cas];
        mutex -> [acquire, release];
        set -> [add, read];
        _ -> [enqueue, dequeue]
    end,
    case lists:member(F, Known) of
        false -> io_lib:format("a ~s has no operation ~s: it has ~p", [Model, F, Known]);
        true ->
            case maps:get(keys, S#s.about) of
                Keys when is_integer(Key), Key >= 0, Key < Keys -> none;
                Keys -> io_lib:format("key ~p is none: keys are 0 to ~b", [Key, Keys - 1])
            end
    end.

%% Answers a call: at once, or with `wait` once all lines so far have their replies. The start waits for one reply in any case.
settle(S, From, Answer) ->
    case maps:get(wait, S#s.options) orelse Answer =:= legal of
        true -> woken(S#s{waiting = [{S#s.lines, From, Answer} | S#s.waiting]});
        false -> gen_server:reply(From, Answer), S
    end.

woken(S = #s{bad = none}) ->
    {Ready, Waiting} = lists:partition(fun({Lines, _, _}) -> Lines =< S#s.replies end, S#s.waiting),
    [gen_server:reply(From, Answer) || {_, From, Answer} <- Ready],
    S#s{waiting = Waiting};
woken(S = #s{bad = Bad}) ->
    [gen_server:reply(From, case Answer of legal -> Bad; _ -> {verdict, Bad} end) || {_, From, Answer} <- S#s.waiting],
    S#s{waiting = []}.

%% Has the calls again that were delayed, if there is room.
again(S = #s{delayed = Delayed, resetter = none, size = Size}) when Delayed =/= [], Size =< ?MOST; S#s.bad =/= none, Delayed =/= [] ->
    lists:foldl(fun({Request, From}, S1) ->
        case handle_call(Request, From, S1) of
            {reply, Answer, S2} -> gen_server:reply(From, Answer), S2;
            {noreply, S2} -> S2
        end
    end, S#s{delayed = []}, lists:reverse(Delayed));
again(S) -> S.

%% --- Replies, and the end ---

replied(S0, Line) ->
    S = S0#s{replies = S0#s.replies + 1, last = Line, partial = <<>>},
    case {S#s.refusal, verdict(Line)} of
        {none, _} when S#s.replies > S#s.lines -> fail(S, refused(io_lib:format("jepmon gave ~b replies to ~b lines", [S#s.replies, S#s.lines])));
        {none, legal} -> reset_done(woken(S));
        {none, refused} -> erlang:send_after(1000, self(), kill), S#s{refusal = Line};       % the program ends after one
        {none, #{status := unknown}} when S#s.unknown =/= none -> reset_done(woken(S));
        {none, #{status := unknown} = V} ->
            case S#s.options of
                #{go_on := true} -> reset_done(woken(S#s{unknown = described(S, V)}));
                _ -> fail(S, described(S, V))
            end;
        {none, V} -> fail(S, described(S, V));
        _ -> S
    end.

reset_done(S = #s{resetter = From, replies = N, lines = N}) when From =/= none ->
    gen_server:reply(From, ok),
    S1 = S#s{resetter = none, unknown = reported(S, S#s.unknown), kept = [], begun = #{}, processes = processes(S#s.options), by_ends = #{}, sent = #{}},
    lists:foldl(fun(Key, S2) -> command(S2, [io_lib:format("[:model ~b :~s]\n", [Key, S#s.kind])]) end, S1, maps:keys(S#s.by_ends));
reset_done(S) -> S.

verdict(<<"legal">>) -> legal;
verdict(Line) ->
    case re:run(Line, "^(illegal|unknown) key (\\d+) index (\\d+)$", [{capture, all_but_first, list}]) of
        {match, [Word, Key, Index]} -> #{status => list_to_atom(Word), key => list_to_integer(Key), index => list_to_integer(Index), reply => Line};
        nomatch -> refused
    end.

refused(Text) ->
    Line = unicode:characters_to_binary(Text),
    Reply = case Line of <<"refused", _/binary>> -> Line; _ -> <<"refused: ", Line/binary>> end,
    #{status => refused, reply => Reply}.

%% Ends the test, once.
fail(S = #s{bad = none}, Bad) ->
    S1 = woken(kill(S#s{bad = Bad})),
    S1#s.resetter =:= none orelse gen_server:reply(S1#s.resetter, {verdict, Bad}),
    again(S1#s{resetter = none});
fail(S, _) -> S.

%% The verdict with the last events of its key, and with what helps if the key is over its budget.
described(S, Verdict) ->
    jepmon_program:hinted(Verdict#{tail => jepmon_program:tail(history(S), Verdict)}, S#s.options, S#s.program, S#s.kind, S#s.by_ends).

%% What is known of a verdict at the end of its history, once.
reported(_, none) -> none;
reported(_, #{history := _} = Verdict) -> Verdict;
reported(S, Verdict) -> jepmon_program:report(Verdict, S#s.options, S#s.program, S#s.kind, S#s.by_ends, history(S)).

%% The events since the last reset: the lines without commands, each of which begins with [: as no event does.
history(S) -> iolist_to_binary([events(Piece) || Piece <- lists:reverse(S#s.kept, [iolist_to_binary(S#s.buffer)])]).

events(Piece) ->
    case binary:match(Piece, <<"[:">>) of
        nomatch -> Piece;
        _ -> re:replace(Piece, "^\\[:.*\\n", "", [global, multiline, {return, binary}])
    end.

exited(S, Status) ->
    Why = case jepmon_program:errors(S#s.folder) of "" -> ""; Text -> ": " ++ Text end,
    How = if Status > 128 -> io_lib:format("by signal ~b", [Status - 128]); true -> io_lib:format("with status ~b", [Status]) end,
    Expected = case S#s.last of <<"unknown", _/binary>> -> 2; _ -> 0 end,
    if
        S#s.refusal =/= none -> fail(S, refused([S#s.refusal, Why]));
        S#s.closer =:= none; S#s.replies =/= S#s.lines ->
            fail(S, refused(io_lib:format("jepmon has ended ~s, after ~b replies to ~b lines~s", [How, S#s.replies, S#s.lines, Why])));
        Status =/= Expected -> fail(S, refused(io_lib:format("jepmon has ended ~s, after the reply ~s~s", [How, S#s.last, Why])));
        true -> S
    end.

%% Answers close, once it is known how the program has ended, or that the history is not legal.
at_end(S = #s{closer = none}) -> S;
at_end(S = #s{bad = none, port = Port}) when Port =/= none -> S;
at_end(S) ->
    Bad = case S#s.bad of none -> S#s.unknown; Verdict -> Verdict end,
    gen_server:reply(S#s.closer, case reported(S, Bad) of
        none -> legal;
        Reported -> {verdict, Reported}
    end),
    S.
