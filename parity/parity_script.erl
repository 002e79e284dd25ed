%% The lines of scripts, which may leave numbers to the player:
%%
%%   up, ignore, fail REASON    the start that is awaited succeeds, answers ignore, fails
%%   exit ID REASON             the process of the child with this id ends
%%                              (these are left out once the supervisor has ended)
%%   ends                       the processes that were killed, or asked to shut down, end as they are asked to
%%   all up                     each start succeeds, until none is awaited
%%   finish                     all open work goes well, and then which_children tells what is left
-module(parity_script).
-export([next/2]).

%% The first line to play, as `sim` reads it, and what is left; done; or stuck at a line that names no process.
next([], _View) -> done;
next([Line | Rest], View) ->
    case line(string:lexemes(Line, " "), View) of
        same -> {Line, Rest};
        skip -> next(Rest, View);
        {again, Now} -> {Now, [Line | Rest]};
        {then, Lines} -> next(Lines ++ Rest, View);
        stuck -> {stuck, Line};
        Now -> {Now, Rest}
    end.

line([Note], View) when Note =:= "up"; Note =:= "ignore" -> note(Note, View, "");
line(["fail", Reason], View) -> note("fail", View, [" ", Reason]);
line(["exit", Id, Reason], View) when hd(Id) >= $a ->
    #{children := Children, end_reason := End} = View,
    case [N || {N, State, Name} <- lists:reverse(Children), atom_to_list(Name) =:= Id, State =/= gone] of
        [N | _] -> text("exit ~b ~s", [N, Reason]);
        [] when End =/= none -> skip;
        [] -> stuck
    end;
line(["ends"], View) -> an_end(View, skip);
line(["all", "up"], #{starting := none}) -> skip;
line(["all", "up"], View) -> {again, note("up", View, "")};
line(["finish"], #{end_reason := none, starting := none} = View) ->
    an_end(View, {then, ["which"]});
line(["finish"], #{end_reason := none} = View) ->
    case an_end(View, none) of
        none -> {again, note("up", View, "")};
        Line -> Line
    end;
line(["finish"], View) -> an_end(View, {then, ["which"]});
line(_, _) -> same.

note(_Note, #{starting := none, end_reason := End}, _More) when End =/= none -> skip;
note(_Note, #{starting := none}, _More) -> stuck;
note(Note, #{starting := N}, More) -> text("~s ~b~s", [Note, N, More]).

%% The end of a process that was killed, the oldest first; else of the newest that was asked to shut down.
an_end(#{killed := [{N, Why} | _]}, _Else) ->
    {again, text("exit ~b ~s", [N, Why])};
an_end(#{children := Children}, Else) ->
    case [N || {N, asked, _} <- Children] of
        [] -> Else;
        Asked -> {again, text("exit ~b shutdown", [lists:max(Asked)])}
    end.

text(Form, Values) -> lists:flatten(io_lib:format(Form, Values)).
