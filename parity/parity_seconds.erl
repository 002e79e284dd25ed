%% By which clock does OTP's supervisor count restarts? Crashes of one child, so many milliseconds apart, the first so many after
%% a second of the monotonic clock began, and whether the supervisor is alive after them:
%%
%%   erl -noshell -run parity_seconds main
%%
%% All runs go side by side. A line for each interval: whether each phase was survived, and whether all phases are by whole seconds
%% and by milliseconds. It ends with 1 where a run differs from whole seconds, reckoned from the times at which its crashes came
%% (on a busy machine they come late); or where crashes were as far apart as all phases survive, and the supervisor died. Runs
%% that came so near to a second's end that they may count for either are left out and counted.
-module(parity_seconds).
-behaviour(supervisor).
-export([main/0, main/1, init/1, start_child/0]).

%% A crash this near to the end of a second, in milliseconds, may be counted in the next one.
-define(NEAR, 12).

main(_) -> main().

main() ->
    logger:set_primary_config(level, none),
    Cases = [{I, P, Gap, Phase} || {I, P} <- [{1, 5}, {3, 10}, {2, 3}, {1, 1}, {5, 4}], Gap <- gaps(I, P), Phase <- phases()],
    Start = (erlang:monotonic_time(millisecond) div 1000 + 2) * 1000,
    Self = self(),
    Runs = [spawn_link(fun() -> Self ! {self(), run(Case, Start)} end) || Case <- Cases],
    Ends = lists:zip(Cases, [receive {Run, End} -> End end || Run <- Runs]),
    io:format("restarts   interval  survived in phases       whole seconds  milliseconds~n"),
    [line(I, P, Gap, Ends) || {I, P} <- [{1, 5}, {3, 10}, {2, 3}, {1, 1}, {5, 4}], Gap <- gaps(I, P)],
    Sure = [End || {_, {_, Said, _} = End} <- Ends, Said =/= unsure],
    Wrong = [End || {Lives, Said, _} = End <- Sure, Lives =/= Said],
    Least = [Case || {{_, P, _, _} = Case, {Lives, _, Apart}} <- Ends, Apart >= (P + 1) * 1000, not Lives],
    io:format("~b runs, ~b too near to a second's end, ~b differ from whole seconds, ~b died whose crashes were as far apart as is survived in each phase~n",
              [length(Ends), length(Ends) - length(Sure), length(Wrong), length(Least)]),
    halt(case {Wrong, Least} of {[], []} -> 0; _ -> 1 end).

%% The least interval that is survived in all phases, by whole seconds: (period + 1) seconds by the intensity, rounded up.
least(I, P) -> ((P + 1) * 1000 + I - 1) div I.

gaps(I, P) ->
    Ours = P * 1000 div I + 1,
    Theirs = least(I, P),
    lists:usort([Ours - 60, Ours + 6, (Ours + Theirs) div 2, Theirs - 100, Theirs - 40, Theirs, Theirs + 40, Theirs + 200]).

phases() -> [15, 115, 300, 500, 700, 900, 950].

%% Whether the supervisor lived, what whole seconds say, and how far apart the first and the last crash were at the least.
run({I, P, Gap, Phase}, Start) ->
    process_flag(trap_exit, true),
    {ok, Supervisor} = supervisor:start_link(?MODULE, {I, P}),
    Times = [crash(Supervisor, Start + Phase + N * Gap) || N <- lists:seq(0, I)],
    wait(erlang:monotonic_time(millisecond) + 60),
    Lives = is_process_alive(Supervisor),
    exit(Supervisor, kill),
    {_, First} = hd(Times),
    {Last, _} = lists:last(Times),
    {Lives, said(P, Times), Last - First}.

%% The child is killed at this time, and the answer is when the supervisor had taken it, at the earliest and at the latest.
crash(Supervisor, Time) ->
    wait(Time),
    Before = erlang:monotonic_time(millisecond),
    case catch supervisor:which_children(Supervisor) of
        [{_, Pid, _, _}] when is_pid(Pid) ->
            exit(Pid, kill),
            _ = (catch supervisor:count_children(Supervisor)),
            {Before, erlang:monotonic_time(millisecond)};
        _ -> {Before, Before}
    end.

wait(Time) ->
    case Time - erlang:monotonic_time(millisecond) of
        Left when Left > 0 -> timer:sleep(Left), wait(Time);
        _ -> ok
    end.

%% What whole seconds say of crashes at these times, the period's ends both counted.
said(P, Times) ->
    {First, _} = hd(Times),
    {_, Last} = lists:last(Times),
    case lists:any(fun({A, B}) -> floor_second(A - 2) =/= floor_second(B + ?NEAR) end, [hd(Times), lists:last(Times)]) of
        true -> unsure;
        false -> floor_second(Last) - floor_second(First) > P
    end.

floor_second(Time) -> erlang:convert_time_unit(Time, millisecond, second).

line(I, P, Gap, Ends) ->
    Marks = [mark(proplists:get_value({I, P, Gap, Phase}, Ends)) || Phase <- phases()],
    io:format("~b in ~b s   ~6b ms  ~-23s  ~-13s  ~s~n",
              [I, P, Gap, lists:append(Marks), word(Gap >= least(I, P)), word(Gap * I > P * 1000)]).

mark({_, unsure, _}) -> " ? ";
mark({true, _, _}) -> " + ";
mark({false, _, _}) -> " - ".

word(true) -> "survived";
word(false) -> "not always".

init({I, P}) ->
    {ok, {#{strategy => one_for_one, intensity => I, period => P},
          [#{id => child, start => {?MODULE, start_child, []}, restart => permanent}]}}.

start_child() -> {ok, spawn_link(fun() -> receive stop -> ok end end)}.
