%% Scripts by chance: a tree and lines that are drawn as the play goes on, out of those that can be played.
%%
%% A seed draws one tree and, with one OTP, the same lines each time.
-module(parity_chance).
-export([tree/1, line/1]).

%% The tree file of a seed. What is drawn from here on in this process is the seed's too.
tree(Seed) ->
    rand:seed(exsss, {Seed, 0, 0}),
    Strategy = pick([{3, "one_for_one"}, {3, "one_for_all"}, {3, "rest_for_one"}, {3, "simple_one_for_one"}]),
    Auto = pick([{3, "never"}, {1, "any_significant"}, {2, "all_significant"}]),
    Count = case Strategy of "simple_one_for_one" -> 1; _ -> pick([{1, 1}, {3, 2}, {5, 3}, {1, 4}]) end,
    Children = [child(Id, Auto) || Id <- lists:sublist(["a", "b", "c", "d"], Count)],
    lists:flatten([io_lib:format("strategy = \"~s\"\n", [Strategy]),
                   io_lib:format("intensity = ~b\nperiod = 1000\n", [pick([{1, 0}, {3, 1}, {4, 2}, {4, 3}])]),
                   [io_lib:format("auto_shutdown = \"~s\"\n", [Auto]) || Auto =/= "never"],
                   "child = [\n", Children, "]\n"]).

child(Id, Auto) ->
    Restart = pick([{3, "permanent"}, {4, "transient"}, {3, "temporary"}]),
    Significant = Auto =/= "never" andalso Restart =/= "permanent" andalso pick([{2, true}, {1, false}]),
    Shutdown = pick([{6, none}, {2, "\"brutal_kill\""}, {1, "\"infinity\""}]),
    Type = pick([{6, none}, {1, "supervisor"}]),
    ["  { id = \"", Id, "\", start = \"", Id, "\"",
     [[", restart = \"", Restart, "\""] || Restart =/= "permanent"],
     [", significant = true" || Significant],
     [[", shutdown = ", Shutdown] || Shutdown =/= none],
     [[", type = \"", Type, "\""] || Type =/= none], " },\n"].

%% A line that may come now.
line(#{killed := [{N, Why} | _]}) -> text("exit ~b ~s", [N, Why]);
line(View) ->
    case pick([{7, start}, {6, stop}, {5, death}, {3, call}]) of
        start -> started(View);
        stop -> stopped(View);
        death -> death(View);
        call -> call(View)
    end.

started(#{starting := none} = View) -> death(View);
started(#{starting := N, is_open := IsOpen}) ->
    case pick([{case IsOpen of true -> 6; false -> 12 end, up}, {2, ignore}, {case IsOpen of true -> 4; false -> 1 end, fail}, {1, dies}]) of
        up -> text("up ~b", [N]);
        ignore -> text("ignore ~b", [N]);
        fail -> text("fail ~b ~s", [N, pick([{4, "error:y"}, {1, "shutdown"}, {1, "normal"}, {1, "shutdown:y"}])]);
        dies -> text("exit ~b error:z", [N])
    end.

stopped(#{children := Children} = View) ->
    case [N || {N, asked, _} <- Children] of
        [] -> started(View);
        Asked -> text("exit ~b ~s", [one_of(Asked), pick([{6, "shutdown"}, {1, "normal"}, {1, "error:z"}, {1, "killed"}])])
    end.

death(#{children := Children} = View) ->
    case [N || {N, up, _} <- Children] of
        [] -> call(View);
        Live -> text("exit ~b ~s", [one_of(Live), pick([{6, "error:x"}, {2, "normal"}, {1, "shutdown"}, {1, "shutdown:x"}, {1, "killed"}, {1, "noproc"}])])
    end.

call(#{simple := true} = View) ->
    case pick([{8, start}, {4, terminate}, {2, "which"}, {2, "count"}, {1, other}, {1, "stop"}]) of
        start -> "start";
        terminate -> terminate(View);
        other -> one_of(["terminate a", "restart a", "delete a", "get a", "get x"]);
        Line -> Line
    end;
call(_View) ->
    Id = one_of(["a", "b", "c", "d", "e"]),
    case pick([{4, "restart"}, {3, "delete"}, {5, "terminate"}, {1, "get"}, {3, start}, {2, "which"}, {2, "count"}, {1, "stop"}]) of
        start -> text("start ~s ~s ~s false ~s worker", [Id, Id, one_of(["permanent", "transient", "temporary"]), one_of(["5000", "brutal_kill", "infinity"])]);
        Line when Line =:= "which"; Line =:= "count"; Line =:= "stop" -> Line;
        Verb -> Verb ++ " " ++ Id
    end.

terminate(#{children := Children, restarting := Restarting}) ->
    case [N || {N, up, _} <- Children] ++ [N || {_, N} <- Restarting] of
        [] -> "start";
        Numbers -> text("terminate #~b", [one_of(Numbers)])
    end.

pick(Weighted) ->
    Sum = lists:sum([W || {W, _} <- Weighted]),
    pick(rand:uniform(Sum), Weighted).

pick(N, [{W, Value} | _]) when N =< W -> Value;
pick(N, [{W, _} | Rest]) -> pick(N - W, Rest).

one_of(List) -> lists:nth(rand:uniform(length(List)), List).

text(Form, Values) -> lists:flatten(io_lib:format(Form, Values)).
