%% The program of jepmon.erl: where it is, what it says of itself, its pipes, and what is said of a verdict.
-module(jepmon_program).
-export([find/1, hello/2, model/1, kind/2, start/3, kill/1, errors/1, remove/2, tail/2, hinted/5, report/6, cause_of/1]).
-define(MAJOR, 1).               % of the oldest program that this library works with
-define(MINOR, 4).
-define(WIDE, #{                 % the second kinds of models: the same objects, of which fewer outcomes count against the budget
    register => 'wide-register', 'cas-register' => 'wide-cas-register', 'fifo-queue' => 'wide-fifo-queue',
    'unordered-queue' => 'wide-unordered-queue', set => 'wide-set'}).

%% The path that is named, or that JEPMON names; else the program in a folder above this library; else in one above the source from which it
%% was compiled; else jepmon on the PATH.
find(#{program := Path}) -> Path;
find(_) ->
    case os:getenv("JEPMON", "") of
        "" ->
            Source = proplists:get_value(source, ?MODULE:module_info(compile), ""),
            Folders = [filename:dirname(filename:absname(File)) || File <- [code:which(?MODULE), Source]],
            case [Path || Folder <- Folders, Path <- [above(Folder)], Path =/= none] of
                [Path | _] -> Path;
                [] -> case os:find_executable("jepmon") of false -> "jepmon"; Path -> Path end
            end;
        Path -> Path
    end.

above(Folder) ->
    Candidates = [filename:join(Folder, Name) || Name <- ["jepmon", "dist/jepmon"]],
    case [Path || Path <- Candidates, is_machine_code(Path)] of
        [Path | _] -> Path;
        [] -> case filename:dirname(Folder) of Folder -> none; Up -> above(Up) end
    end.

%% A script of a clone is no program.
is_machine_code(Path) ->
    case filelib:is_regular(Path) andalso file:open(Path, [read, raw, binary]) of
        {ok, File} -> First = file:read(File, 4), file:close(File), First =:= {ok, <<127, "ELF">>};
        _ -> false
    end.

%% The model of this name, or of its wide kind.
model(Name) -> maps:get(Name, maps:from_list([{Kind, Model} || {Model, Kind} <- maps:to_list(?WIDE)]), Name).

%% The kind by which a program that has these kinds judges the model.
kind(#{model := Model, by_ends := ByEnds}, #{kinds := Kinds}) ->
    Kind = maps:get(Model, ?WIDE, Model),
    case not ByEnds andalso lists:member(atom_to_list(Kind), Kinds) of true -> Kind; false -> Model end.

%% {ok, About} or {error, Text}: what a program says of itself, or what is wrong with it. It answers [:hello], or it is older than 1.6, and says
%% its version alone. About has the names of its kinds, and its limits: operations that are open at once, and keys.
hello(Program, Timeout) ->
    Longest = min(Timeout, 60000),
    Question = "printf '[:hello]\\n' | exec \"$0\" script 2>/dev/null",
    case run("/bin/sh", ["-c", Question, Program], [], Longest) of
        {_, <<"{:jepmon \"", Rest/binary>> = Line} ->
            case binary:last(Line) =:= $\n andalso re:run(Rest, "^([^\"]*)\" .*}$", [{capture, all_but_first, list}]) of
                {match, [Version]} -> about(Program, Version, fun(_) -> of_hello(Line) end);
                _ -> by_version(Program, Longest)
            end;
        _ -> by_version(Program, Longest)
    end.

of_hello(Line) ->
    Kinds = case re:run(Line, ":kinds \\[([^\\]]*)\\]", [{capture, all_but_first, list}]) of
        {match, [Names]} -> [string:trim(Name, leading, ":") || Name <- string:lexemes(Names, " ")];
        nomatch -> []
    end,
    #{kinds => Kinds, clients => limit(Line, "max-clients", 64), keys => limit(Line, "max-keys", 65536)}.

%% The number of this name, if the answer has it.
limit(Line, Name, Otherwise) ->
    case re:run(Line, ":" ++ Name ++ " (\\d+)[ }]", [{capture, all_but_first, list}]) of
        {match, [Number]} -> list_to_integer(Number);
        nomatch -> Otherwise
    end.

by_version(Program, Longest) ->
    Line = case run(Program, ["--version"], [], Longest) of
        {0, Text} -> hd(binary:split(Text, <<"\n">>));
        {Status, _} -> {Status}
    end,
    case Line of
        {enoent} -> {error, io_lib:format("there is no ~s: JEPMON names the program, or it is on the PATH", [Program])};
        {Other} -> {error, io_lib:format("~s can't be used: ~p", [Program, Other])};
        <<"jepmon ", Version/binary>> ->
            about(Program, binary_to_list(Version), fun(Minor) ->
                #{kinds => [Kind || Minor >= 5, Kind <- ["wide-register", "wide-set"]], clients => 64, keys => 65536}
            end);
        _ -> {error, io_lib:format("~s is no jepmon: its --version prints ~p", [Program, Line])}
    end.

%% What is said of a program of this version, if this library works with it.
about(Program, Version, Said) ->
    case [string:to_integer(Number) || Number <- string:split(Version, ".", all)] of
        [{?MAJOR, ""}, {Minor, ""}, {_, ""}] when Minor >= ?MINOR -> {ok, Said(Minor)};
        _ -> {error, io_lib:format("~s is jepmon ~s: this library needs jepmon ~b.~b or a later ~b", [Program, Version, ?MAJOR, ?MINOR, ?MAJOR])}
    end.

%% Runs a program without input, and without its standard error.
quietly(Words, Env) -> run("/bin/sh", ["-c", "exec \"$0\" \"$@\" </dev/null 2>/dev/null" | Words], Env, 60000).

%% Runs a program to its end: its status and what it printed.
run(Program, Words, Env, Longest) ->
    try open_port({spawn_executable, Program}, [{args, Words}, {env, Env}, binary, exit_status, use_stdio, in]) of
        Port -> collected(Port, <<>>, Longest)
    catch error:Reason -> {Reason, <<>>}
    end.

collected(Port, Text, Longest) ->
    receive
        {Port, {data, More}} -> collected(Port, <<Text/binary, More/binary>>, Longest);
        {Port, {exit_status, Status}} -> {Status, Text}
    after Longest -> kill(Port), catch port_close(Port), {timeout, Text}
    end.

%% The program reads from a named pipe, so that its input can end while its output is read. A process of its own writes: a write waits
%% while the pipe is full.
start(Program, Kind, Options) ->
    Folder = string:trim(os:cmd("mktemp -d")),
    Pipe = filename:join(Folder, "lines"),
    os:cmd("mkfifo " ++ Pipe),
    Words = ["script", "--strict" | words(Kind, Options)],
    Port = open_port({spawn_executable, "/bin/sh"}, [{args, ["-c", "exec \"$0\" \"$@\" <\"$JEPMON_LINES\" 2>\"$JEPMON_ERRORS\"", Program | Words]},
        {env, [{"JEPMON_LINES", Pipe}, {"JEPMON_ERRORS", filename:join(Folder, "errors")}]}, {line, 65536}, binary, exit_status, in]),
    Server = self(),
    Writer = spawn_link(fun() ->
        {ok, File} = file:open(Pipe, [write, raw, binary]),
        Server ! written,
        write(Server, File)
    end),
    {Port, Writer, Folder}.

%% The options that `jepmon script` and `jepmon check` have.
words(Kind, #{concurrency := Concurrency, budget := Budget}) ->
    ["--concurrency", integer_to_list(Concurrency), "--model", atom_to_list(Kind)] ++ [Word || Budget > 0, Word <- ["--budget", integer_to_list(Budget)]].

write(Server, File) ->
    receive
        {write, Piece} ->
            case file:write(File, Piece) of
                ok -> Server ! written, write(Server, File);
                {error, _} -> file:close(File)                 % the server says why the program has ended
            end;
        close -> file:close(File)
    end.

kill(Port) ->
    case erlang:port_info(Port, os_pid) of
        {os_pid, Id} -> os:cmd(io_lib:format("kill -9 -~b ~b 2>/dev/null", [Id, Id])), ok;
        undefined -> ok
    end.

%% What the program wrote to standard error.
errors(Folder) ->
    case file:read_file(filename:join(Folder, "errors")) of
        {ok, Text} -> lists:join(" ", string:lexemes(binary_to_list(Text), " \n"));
        _ -> ""
    end.

remove(undefined, _) -> ok;
remove(Writer, Folder) ->
    unlink(Writer),
    exit(Writer, kill),
    file:del_dir_r(Folder),
    ok.

%% --- Verdicts ---

%% The last events of the verdict's key, each after its index.
tail(History, #{key := Key, index := Index}) ->
    Of = iolist_to_binary(io_lib:format(" :value [~b ", [Key])),
    Lines = lists:sublist(binary:split(History, <<"\n">>, [global]), Index + 1),
    All = [{N, Line} || {N, Line} <- lists:zip(lists:seq(0, length(Lines) - 1), Lines), binary:match(Line, Of) =/= nomatch],
    [iolist_to_binary(io_lib:format("~b ~s", [N, Line])) || {N, Line} <- lists:nthtail(max(0, length(All) - 12), All)].

%% The verdict with what helps if the key is over its budget.
hinted(#{status := unknown, key := Key} = Verdict, #{model := Model} = Options, Program, Kind, ByEnds) ->
    Way = case {maps:get(Model, ?WIDE, Kind), Options} of
        _ when is_map_key(Key, ByEnds) ->
            ". Two enqueues of one value have not failed, so the queue is judged by its ends: give each message a value of its own";
        {Kind, _} -> "";
        {Wide, #{by_ends := true}} -> io_lib:format(". Without by_ends the kind ~s may decide it", [Wide]);
        {Wide, _} -> io_lib:format(". ~s does not have the kind ~s: a newer jepmon may decide it", [Program, Wide])
    end,
    Verdict#{hint => unicode:characters_to_binary(io_lib:format(
        "key ~b has more outcomes than its budget: raise budget, let fewer clients use one key, or write to a new key after timeouts~s", [Key, Way]))};
hinted(Verdict, _, _, _, _) -> Verdict.

%% The verdict with the file of the history. It has the other keys over their budget, if a test went on, and the cause in words, if
%% jepmon-judge is there.
report(Verdict, Options, Program, Kind, ByEnds, History) ->
    Folder = maps:get(out, Options, os:getenv("JEPMON_OUT", "/tmp")),
    File = filename:join(Folder, io_lib:format("jepmon-~s-~b.edn", [os:getpid(), erlang:unique_integer([positive])])),
    case file:write_file(File, History) of
        ok ->
            Cause = case Verdict of #{status := illegal} -> cause(File, Options, Program); _ -> [] end,
            Also = case {Verdict, Options} of
                {#{status := unknown, key := Key}, #{go_on := true, model := Model}} ->
                    Others = fun(By) -> over(quietly([Program, "check", File | words(By, Options)], [])) end,
                    Wide = [Over || {K, _} = Over <- Others(Kind), K =/= Key, not is_map_key(K, ByEnds)],
                    Plain = [Over || map_size(ByEnds) > 0, {K, _} = Over <- Others(Model), K =/= Key, is_map_key(K, ByEnds)],
                    [iolist_to_binary(io_lib:format("unknown key ~b index ~s", [K, I])) || {K, I} <- Wide ++ Plain];
                _ -> []
            end,
            Verdict#{history => unicode:characters_to_binary(File), cause => Cause, also => Also};
        {error, _} -> Verdict
    end.

%% The keys over their budget and their events, by the report of `jepmon check`. `script` names the first one alone.
over({_, Report}) ->
    case re:run(Report, "^key (\\d+) .* status over (\\d+)$", [global, multiline, {capture, all_but_first, list}]) of
        {match, All} -> [{list_to_integer(K), I} || [K, I] <- All];
        nomatch -> []
    end.

cause(File, Options, Program) ->
    case judge(Program) of
        none -> [];
        Judge ->
            Words = [Judge, File, "--json", "--model", atom_to_list(maps:get(model, Options)), "--concurrency", integer_to_list(maps:get(concurrency, Options))],
            {_, Text} = quietly(Words, [{"JEPMON", Program}]),
            cause_of(Text)
    end.

%% The headline and the sentences of the first cause in the object that jepmon-judge prints.
cause_of(Text) ->
    case re:run(Text, "\"headline\":[^\\]]*\\]", [{capture, first, binary}]) of
        {match, [Part]} ->
            {match, Strings} = re:run(Part, "\"((?:[^\"\\\\]|\\\\.)*)\"", [global, {capture, all_but_first, binary}]),
            [re:replace(S, "\\\\(.)", "\\1", [global, {return, binary}]) || [S] <- Strings, S =/= <<"headline">>, S =/= <<"sentences">>];
        nomatch -> []
    end.

%% The jepmon-judge that JEPMON_JUDGE names (`no` is none), else beside the program or in its clone, else on the PATH.
judge(Program) ->
    Folder = filename:dirname(filename:absname(Program)),
    Beside = [Path || Path <- [filename:join(F, "jepmon-judge") || F <- [Folder, filename:dirname(Folder)]], filelib:is_regular(Path)],
    case {os:getenv("JEPMON_JUDGE", ""), Beside, os:find_executable("jepmon-judge")} of
        {"no", _, _} -> none;
        {"", [Path | _], _} -> Path;
        {"", [], false} -> none;
        {"", [], Path} -> Path;
        {Path, _, _} -> Path
    end.
