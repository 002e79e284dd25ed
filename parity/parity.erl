%% Records what OTP's supervisor does with scripts, or with scripts by chance:
%%
%%   erl -noshell -run parity main SCRIPTS TRANSCRIPTS
%%   erl -noshell -run parity chance FIRST LAST LINES TRANSCRIPTS      seeds, and how many lines are drawn
%%
%% A script is a name, a tree file and event lines, written as in a transcript but for the orders. Lines may leave
%% numbers to the player (parity_script); the transcript has them.
-module(parity).
-export([main/1, chance/1]).

main([In, Out]) ->
    logger:set_primary_config(level, none),
    parity_player:trace(),
    {ok, Text} = file:read_file(In),
    Scripts = [script(T) || T <- tl(string:split(binary_to_list(Text), "\n== ", all))],
    {Timed, Others} = lists:partition(fun is_timed/1, Scripts),
    Played = [{Name, record(S)} || {Name, _, _} = S <- Others] ++ at_once(Timed),
    Results = maps:from_list(Played),
    Written = [transcript(S, maps:get(Name, Results)) || {Name, _, _} = S <- Scripts],
    ok = file:write_file(Out, Written),
    Failed = [{Name, Why} || {Name, {no, Why}} <- Played],
    [io:format("not recorded: ~s: ~s~n", [Name, Why]) || {Name, Why} <- Failed],
    io:format("~b recorded, ~b not~n", [length(Played) - length(Failed), length(Failed)]),
    halt(case Failed of [] -> 0; _ -> 1 end).

chance([First, Last, Lines, Out]) ->
    logger:set_primary_config(level, none),
    parity_player:trace(),
    Count = list_to_integer(Lines),
    ok = file:write_file(Out, [drawn(Seed, Count) || Seed <- lists:seq(list_to_integer(First), list_to_integer(Last))]),
    halt(0).

%% A line that can't be played, or isn't to be compared, is drawn again.
drawn(Seed, Count) ->
    Tree = parity_chance:tree(Seed),
    Player = parity_player:open(Tree),
    Result = case draw(Count, 4 * Count, Player, []) of
                 {odd, Lines} ->
                     parity_player:close(Player),
                     {no, Lines};
                 {Played, Now} -> play(["finish", "count"], Now, Played)
             end,
    flush(),
    transcript({io_lib:format("by chance, seed ~b", [Seed]), Tree, []}, Result).

draw(Count, Tries, Player, Played) when Count =:= 0; Tries =:= 0 -> {Played, Player};
draw(Count, Tries, Player, Played) ->
    case parity_player:view(Player) of
        #{end_reason := none} = View ->
            Line = parity_chance:line(View),
            case parity_player:play(Line, Player) of
                {ok, Next} -> draw(Count - 1, Tries - 1, Next, [Line | Played]);
                {no, _Why} -> draw(Count, Tries - 1, Player, Played);
                {odd, _Why} -> {odd, Played}
            end;
        _ -> {Played, Player}
    end.

script(Text) ->
    [Head, Lines] = string:split(Text, "-- lines\n"),
    [Name, Tree] = string:split(Head, "\n"),
    {Name, Tree, string:lexemes(Lines, "\n")}.

is_timed({_, _, Lines}) -> lists:any(fun(Line) -> lists:prefix("at ", Line) end, Lines).

%% Scripts in which time passes are played side by side. OTP reads whole seconds for restarts: each begins a little
%% after a second has begun, so that whole seconds of a script are whole seconds of OTP.
at_once(Scripts) ->
    Self = self(),
    [parity_text:tree(Tree, Self) || {_, Tree, _} <- Scripts],  % the modules of their starts are made one at a time
    Workers = [spawn_link(fun() -> after_second(), Self ! {self(), record(S)} end) || S <- Scripts],
    [{Name, receive {Worker, Result} -> Result end} || {{Name, _, _}, Worker} <- lists:zip(Scripts, Workers)].

after_second() ->
    Second = erlang:monotonic_time(1),
    until_after(Second),
    timer:sleep(100).

until_after(Second) ->
    case erlang:monotonic_time(1) of
        Second -> timer:sleep(5), until_after(Second);
        _ -> ok
    end.

record({_Name, Tree, Lines}) ->
    Player = parity_player:open(Tree),
    Result = play(Lines, Player, []),
    flush(),
    Result.

play(Lines, Player, Played) ->
    case parity_script:next(Lines, parity_player:view(Player)) of
        done ->
            parity_player:close(Player),
            {ok, lists:reverse(Played), parity_player:orders(Player)};
        {stuck, Line} ->
            parity_player:close(Player),
            {no, [Line, ": no such process"]};
        {Line, Rest} ->
            case parity_player:play(Line, Player) of
                {ok, Next} -> play(Rest, Next, [Line | Played]);
                {_, Why} ->
                    parity_player:close(Player),
                    {no, io_lib:format("~s: ~s", [Line, Why])}
            end
    end.

%% What a closed player's processes still send.
flush() ->
    receive _ -> flush() after 0 -> ok end.

transcript(_, {no, _}) -> [];
transcript({Name, Tree, _}, {ok, Lines, Orders}) ->
    ["\n== ", Name, "\n-- otp ", otp(), "\n", Tree, "-- lines\n", [[L, "\n"] || L <- Lines],
     "-- orders\n", [[O, "\n"] || O <- Orders]].

otp() ->
    File = filename:join([code:root_dir(), "releases", erlang:system_info(otp_release), "OTP_VERSION"]),
    {ok, Version} = file:read_file(File),
    string:trim(Version).
