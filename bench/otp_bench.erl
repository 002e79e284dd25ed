%% The work that bench/run gives to the program, done by Erlang/OTP's own supervisor.
%% erl -noshell -pa DIR -run otp_bench main WORK HOW N
%%   WORK: storm (N restarts of one child), storm50 (the same at intensity 50), all (N restarts of 256 children under one_for_all),
%%         calls (N calls, which_children and count_children in turn, over 256 children),
%%         counts (N calls of count_children over 256 children),
%%         turns (N turns of 256 processes together, which only yield; HOW is process),
%%         tree (supervisors of 256 children each, 63 under one, are started and stopped; N children),
%%         storms (N restarts in all, by 63 supervisors at once, at intensity 50),
%%         sleeper, at_once (N messages to a process that waits, each after a pause or at once; until it notes that it has one),
%%         idle (63 supervisors of N children each are started, "up" is printed, and all sleep until this program is ended).
%%   HOW:  process (a supervisor process, which is sent messages), or callbacks (supervisor's
%%         handle_info and handle_call, called in this process).
%% Prints the microseconds that the work took (of sleeper and at_once: from each message to the note of it). Reports of the logger are off.
-module(otp_bench).
-behaviour(supervisor).
-export([main/1, init/1, start_worker/1, start_nested/1]).

%% The storm's supervisors live for so many restarts each: one more would end them.
-define(INTENSITY, 1000).
-define(USUAL_INTENSITY, 50).
-define(PERIOD, 1000000).
-define(CHILDREN, 256).
-define(SUPERVISORS, 63).
%% Milliseconds in which a process that waits falls asleep with its scheduler.
-define(PAUSE, 1).

main([Work, How, N]) ->
    ok = logger:set_primary_config(level, none),
    process_flag(trap_exit, true),
    Count = list_to_integer(N),
    Begin = erlang:monotonic_time(microsecond),
    Taken = case work(list_to_atom(Work), list_to_atom(How), Count) of
        ok -> erlang:monotonic_time(microsecond) - Begin;
        {taken, Nanoseconds} -> Nanoseconds div 1000
    end,
    io:format("~b~n", [Taken]),
    halt(0).

init({root, Children}) ->
    Nested = #{start => {?MODULE, start_nested, [Children]}, type => supervisor},
    {ok, {#{}, [Nested#{id => Id} || Id <- lists:seq(1, ?SUPERVISORS)]}};
init({Strategy, Children, Driver}) -> init({Strategy, ?INTENSITY, Children, Driver});
init({Strategy, Intensity, Children, Driver}) ->
    Flags = #{strategy => Strategy, intensity => Intensity, period => ?PERIOD},
    Start = {?MODULE, start_worker, [Driver]},
    {ok, {Flags, [#{id => Id, start => Start} || Id <- lists:seq(1, Children)]}}.

start_nested(Children) -> supervisor:start_link(?MODULE, {one_for_one, Children, none}).

start_worker(none) ->
    {ok, spawn_link(fun() -> receive die -> exit(crash) end end)};
start_worker(Driver) ->
    Pid = spawn_link(fun() -> receive die -> exit(crash) end end),
    Driver ! {started, Pid},
    {ok, Pid}.

work(storm, How, N) -> storm_at(?INTENSITY, How, N);
work(storm50, How, N) -> storm_at(?USUAL_INTENSITY, How, N);
work(all, process, N) ->
    {ok, Sup} = supervisor:start_link(?MODULE, {one_for_all, ?CHILDREN, self()}),
    ok = all(N, last_started(?CHILDREN, none)),
    stop(Sup);
work(all, callbacks, N) ->
    {ok, State} = supervisor:init({self, ?MODULE, {one_for_all, ?CHILDREN, self()}}),
    all_callbacks(N, last_started(?CHILDREN, none), State);
work(calls, process, N) ->
    {ok, Sup} = supervisor:start_link(?MODULE, {one_for_one, ?CHILDREN, self()}),
    last_started(?CHILDREN, none),
    ok = calls(N, Sup),
    stop(Sup);
work(calls, callbacks, N) ->
    {ok, State} = supervisor:init({self, ?MODULE, {one_for_one, ?CHILDREN, self()}}),
    last_started(?CHILDREN, none),
    calls_callbacks(N, State);
work(counts, process, N) ->
    {ok, Sup} = supervisor:start_link(?MODULE, {one_for_one, ?CHILDREN, self()}),
    last_started(?CHILDREN, none),
    ok = counts(N, Sup),
    stop(Sup);
work(counts, callbacks, N) ->
    {ok, State} = supervisor:init({self, ?MODULE, {one_for_one, ?CHILDREN, self()}}),
    last_started(?CHILDREN, none),
    counts_callbacks(N, State);
work(tree, process, N) when N < ?SUPERVISORS * ?CHILDREN -> ok;
work(tree, process, N) ->
    {ok, Sup} = supervisor:start_link(?MODULE, {root, ?CHILDREN}),
    stop(Sup),
    work(tree, process, N - ?SUPERVISORS * ?CHILDREN);
work(idle, process, N) ->
    {ok, _} = supervisor:start_link(?MODULE, {root, N}),
    io:format("up~n"),
    receive never -> ok end;
work(sleeper, process, N) -> wake_often(N, ?PAUSE);
work(at_once, process, N) -> wake_often(N, 0);
work(storms, process, N) ->
    Driver = self(),
    Storm = fun() ->
        process_flag(trap_exit, true),
        ok = storm_at(?USUAL_INTENSITY, process, N div ?SUPERVISORS),
        Driver ! {ended, self()}
    end,
    Pids = [spawn_link(Storm) || _ <- lists:seq(1, ?SUPERVISORS)],
    lists:foreach(fun(Pid) -> receive {ended, Pid} -> ok end end, Pids);
work(turns, process, N) ->
    Driver = self(),
    Pids = [spawn_link(fun() -> turns(N div ?CHILDREN), Driver ! {turned, self()} end) || _ <- lists:seq(1, ?CHILDREN)],
    lists:foreach(fun(Pid) -> receive {turned, Pid} -> ok end end, Pids).

%% A supervisor does no more restarts than its intensity: then comes a new one.
storm_at(Intensity, How, N) when N > Intensity ->
    ok = storm_at(Intensity, How, Intensity),
    storm_at(Intensity, How, N - Intensity);
storm_at(Intensity, process, N) ->
    {ok, Sup} = supervisor:start_link(?MODULE, {one_for_one, Intensity, 1, self()}),
    ok = storm(N, last_started(1, none)),
    stop(Sup);
storm_at(Intensity, callbacks, N) ->
    {ok, State} = supervisor:init({self, ?MODULE, {one_for_one, Intensity, 1, self()}}),
    storm_callbacks(N, last_started(1, none), State).

%% The last of so many workers that were started.
last_started(0, Pid) -> Pid;
last_started(N, _) -> receive {started, Pid} -> last_started(N - 1, Pid) end.

stop(Sup) ->
    Monitor = monitor(process, Sup),
    exit(Sup, shutdown),
    receive {'DOWN', Monitor, process, Sup, shutdown} -> ok end,
    %% It is linked: what is left in the mailbox would be gone through at each later receive.
    receive {'EXIT', Sup, shutdown} -> ok end.

die(Pid) ->
    Pid ! die,
    receive {'EXIT', Pid, crash} = Exit -> Exit end.

storm(0, _) -> ok;
storm(N, Pid) -> Pid ! die, storm(N - 1, last_started(1, none)).

storm_callbacks(0, _, _) -> ok;
storm_callbacks(N, Pid, State) ->
    {noreply, Next} = supervisor:handle_info(die(Pid), State),
    storm_callbacks(N - 1, last_started(1, none), Next).

%% The last child dies, all others are stopped, and all are started again.
all(0, _) -> ok;
all(N, Pid) -> Pid ! die, all(N - 1, last_started(?CHILDREN, none)).

all_callbacks(0, _, _) -> ok;
all_callbacks(N, Pid, State) ->
    {noreply, Next} = supervisor:handle_info(die(Pid), State),
    all_callbacks(N - 1, last_started(?CHILDREN, none), Next).

calls(0, _) -> ok;
calls(N, Sup) when N rem 2 =:= 0 ->
    ?CHILDREN = length(supervisor:which_children(Sup)),
    calls(N - 1, Sup);
calls(N, Sup) ->
    {active, ?CHILDREN} = lists:keyfind(active, 1, supervisor:count_children(Sup)),
    calls(N - 1, Sup).

calls_callbacks(0, _) -> ok;
calls_callbacks(N, State) when N rem 2 =:= 0 ->
    {reply, Children, _} = supervisor:handle_call(which_children, none, State),
    ?CHILDREN = length(Children),
    calls_callbacks(N - 1, State);
calls_callbacks(N, State) ->
    {reply, Counts, _} = supervisor:handle_call(count_children, none, State),
    {active, ?CHILDREN} = lists:keyfind(active, 1, Counts),
    calls_callbacks(N - 1, State).

counts(0, _) -> ok;
counts(N, Sup) ->
    {active, ?CHILDREN} = lists:keyfind(active, 1, supervisor:count_children(Sup)),
    counts(N - 1, Sup).

counts_callbacks(0, _) -> ok;
counts_callbacks(N, State) ->
    {reply, Counts, _} = supervisor:handle_call(count_children, none, State),
    {active, ?CHILDREN} = lists:keyfind(active, 1, Counts),
    counts_callbacks(N - 1, State).

turns(0) -> ok;
turns(N) -> erlang:yield(), turns(N - 1).

wake_often(N, Pause) ->
    Seen = atomics:new(1, []),
    Pid = spawn_link(fun() -> woken(Seen) end),
    {taken, wake_often(N, Pause, Pid, Seen, 0)}.

wake_often(0, _, _, _, Taken) -> Taken;
wake_often(N, Pause, Pid, Seen, Taken) ->
    Pause =:= 0 orelse timer:sleep(Pause),
    Begin = erlang:monotonic_time(nanosecond),
    Pid ! N,
    wait_until_seen(Seen, N),
    wake_often(N - 1, Pause, Pid, Seen, Taken + erlang:monotonic_time(nanosecond) - Begin).

%% Notes each message.
woken(Seen) -> receive Number -> atomics:put(Seen, 1, Number), woken(Seen) end.

wait_until_seen(Seen, Number) ->
    case atomics:get(Seen, 1) of
        Number -> ok;
        _ -> erlang:yield(), wait_until_seen(Seen, Number)
    end.
