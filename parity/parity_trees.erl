%% Whole trees of worked jobs, run by OTP's own supervisors with real processes:
%%
%%   erl -noshell -run parity_trees main TREES REPORTS
%%
%% TREES has Erlang terms, each {Name, Tree}; REPORTS gets for each the lines that `otp run` prints of the same tree.
%% A tree is {Number, Strategy, Intensity, Period, AutoShutdown, Children}, a child {Id, Restart, Significant, Shutdown, Work},
%% whose work is the word of a job or a tree. Numbers are those of the tables in the order of the file.
-module(parity_trees).
-behaviour(supervisor).
-export([main/1, init/1, start_job/3, start_tree/2]).

%% Nothing has changed for so many milliseconds: the tree has come to rest.
-define(REST, 100).

main([In, Out]) ->
    logger:set_primary_config(level, none),
    {ok, Trees} = file:consult(In),
    {ok, File} = file:open(Out, [write]),
    [io:format(File, "== ~s~n~s", [Name, report(Tree)]) || {Name, Tree} <- Trees],
    ok = file:close(File),
    halt(0).

%% Each tree in a process of its own, whose end takes all that is left with it.
report(Tree) ->
    {Pid, Monitor} = spawn_monitor(fun() -> exit({report, run(Tree)}) end),
    receive
        {'DOWN', Monitor, process, Pid, {report, Text}} -> Text;
        {'DOWN', Monitor, process, Pid, Why} ->
            io:format(standard_error, "parity_trees: ~p~n", [Why]),
            halt(1)
    end.

run(Tree) ->
    process_flag(trap_exit, true),
    ets:new(told, [named_table, public]),
    [ets:insert(told, [{{starts, T}, 0}, {{restarts, T}, 0}, {{ended, T}, none}]) || T <- numbers(Tree)],
    register(watcher, spawn_link(fun watch/0)),
    erlang:trace_pattern({supervisor, add_restart, 1}, true, [local]),
    case start_tree(Tree, none) of
        {ok, Root} ->
            rest(),
            exit(Root, shutdown),
            receive {'EXIT', Root, _} -> ok end;
        {error, _} -> ok
    end,
    rest(),
    Live = length([P || [P] <- ets:match(told, {{process, '$1'}}), is_process_alive(P)]),
    Lines = [line(T) || T <- lists:sort(numbers(Tree))],
    Watcher = whereis(watcher),
    unregister(watcher),
    unlink(Watcher),
    exit(Watcher, kill),
    ets:delete(told),
    [Lines, io_lib:format("live ~b~n", [Live])].

line(T) ->
    [Starts, Restarts, Ended] = [ets:lookup_element(told, {What, T}, 2) || What <- [starts, restarts, ended]],
    io_lib:format("table ~b starts ~b restarts ~b end ~s~n", [T, Starts, Restarts, Ended]).

numbers({T, _, _, _, _, Children}) ->
    [T | lists:append([numbers(Tree) || {_, _, _, _, Tree} <- Children, is_tuple(Tree)])].

rest() -> rest(lists:sort(ets:tab2list(told))).

%% On a busy machine a process may still wait for its turn meanwhile: then the tree isn't at rest.
rest(Told) ->
    timer:sleep(?REST),
    Ready = erlang:statistics(total_run_queue_lengths_all),
    case lists:sort(ets:tab2list(told)) of
        Told when Ready =:= 0 -> ok;
        Now -> rest(Now)
    end.

%% Counts restarts, and notes why supervisors end.
watch() ->
    receive
        {opened, Pid, T} ->
            monitor(process, Pid),
            erlang:trace(Pid, true, [call]),
            put(Pid, T),
            ets:insert(told, [{{restarts, T}, 0}, {{ended, T}, none}, {{process, Pid}}]),
            Pid ! {watcher, noted};
        {trace, Pid, call, {supervisor, add_restart, _}} ->
            ets:update_counter(told, {restarts, get(Pid)}, 1);
        {'DOWN', _, process, Pid, Why} ->
            ets:insert(told, {{ended, get(Pid)}, reason(Why)});
        _ -> ok
    end,
    watch().

%% As a core names the child that didn't start.
reason({shutdown, {failed_to_start_child, Id, _}}) -> "shutdown:failed_to_start_child/" ++ atom_to_list(Id);
reason(Why) -> atom_to_list(Why).

started(none) -> ok;
started(T) -> ets:update_counter(told, {starts, T}, 1).

%% The tree as a child of the table with this number.
start_tree(Tree, Parent) ->
    started(Parent),
    supervisor:start_link(?MODULE, Tree).

init({T, Strategy, Intensity, Period, AutoShutdown, Children}) ->
    watcher ! {opened, self(), T},
    receive {watcher, noted} -> ok end,
    Flags = #{strategy => Strategy, intensity => Intensity, period => Period, auto_shutdown => AutoShutdown},
    {ok, {Flags, [child(T, Child) || Child <- Children]}}.

child(T, {Id, Restart, Significant, Shutdown, Work}) ->
    {Start, Type} = case Work of
        Tree when is_tuple(Tree) -> {{?MODULE, start_tree, [Tree, T]}, supervisor};
        Word -> {{?MODULE, start_job, [T, Id, Word]}, worker}
    end,
    #{id => Id, start => Start, restart => Restart, significant => Significant, shutdown => Shutdown, type => Type}.

start_job(T, Id, Work) ->
    started(T),
    IsFirst = ets:insert_new(told, {{begun, T, Id}}),
    case Work of
        ignore -> ignore;
        refuse -> {error, refused};
        _ -> {ok, spawned(Work, IsFirst)}
    end.

spawned(Work, IsFirst) ->
    Starter = self(),
    Pid = spawn_link(fun() -> up(Work, IsFirst, Starter) end),
    ets:insert(told, {{process, Pid}}),
    receive {up, Pid} -> Pid end.

up(Work, IsFirst, Starter) ->
    process_flag(trap_exit, lists:member(Work, [stubborn, bridge])),
    Starter ! {up, self()},
    work(Work, IsFirst).

work(once, _) -> exit(normal);
work(crash, _) -> exit(crash);
work(crash_once, true) -> exit(crash);
work(bridge, _) -> receive {'EXIT', _, Why} -> exit(Why) end;
work(_, _) -> receive never -> ok end.
