%% Plays event lines to a real supervisor in lockstep, and writes down what it orders.
%%
%% One player plays one script. It learns all that the supervisor does from one stream, in the order in which it is
%% done: the trace of a few calls that the supervisor makes.
%%
%%   parity_job:start/2      a child is started         start NAME #N
%%   exit(Pid, shutdown)     it is asked to shut down   ask NAME #N
%%   exit(Pid, kill)         it is killed               kill NAME #N
%%   gen:reply/2             a call is answered         reply N ..
%%   proc_lib:init_ack/2     start_link/2 returns       ready
%%   its own end             it ends                    end REASON
%%
%% After each line the player waits until the supervisor waits: in its loop, in a start, or for a child to end.
%% Processes are numbered by their starts, and which_children is reversed. An exit signal to a process that has ended
%% is no order, and calls that wait at the end are answered noproc before it.
-module(parity_player).
-export([open/1, play/2, orders/1, close/1, view/1, trace/0, init/1]).

%% A process of a child. Its state: starting, up, asked, killed (it has ended, and a next line will say why), gone. A dynamic
%% child's slot is its place in start order, which its restarts keep.
-record(child, {name, pid, state = starting, slot, why, is_told = false}).

-record(player, {
    simple = false,          % children are dynamic
    sup, parent,
    children = #{},          % by number
    killed = [],             % processes that have ended at the supervisor's word, oldest first: the next lines say so
    starting = none,         % the number whose start is awaited
    restarting = #{},        % dynamic children that wait for another try of their restart: slot, and the number that died
    numbers = 0, calls = 0,
    asked = #{},             % calls that aren't answered: by caller, their number and what was asked
    orders = [],             % newest first
    is_open = false, end_reason = none,
    clock = 0, reading = 0,
    slots = 0,               % the greatest slot given
    retries = #{},           % the children whose next try waits
    is_minus = false,        % a restarting dynamic child was terminated
    refused = none,          % why start_link refused
    odd = none}).            % why OTP's answer is not to be compared

%% --- Opening -------------------------------------------------------------------------------------------------

open(Tree) ->
    {Flags, Children} = parity_text:tree(Tree, self()),
    Player = self(),
    Parent = spawn(fun() -> parent(Player, Flags, Children) end),
    Sup = receive {parity_init, Pid} -> Pid end,
    erlang:trace(Sup, true, [call, procs]),
    Sup ! parity_go,
    State = #player{simple = maps:get(strategy, Flags, one_for_one) =:= simple_one_for_one,
                    sup = Sup, parent = Parent, clock = erlang:monotonic_time(millisecond)},
    settle(State).

%% The supervisor's parent. It dies with the reason shutdown where it is to stop a supervisor that hasn't opened.
parent(Player, Flags, Children) ->
    Answer = supervisor:start_link(?MODULE, {Player, Flags, Children}),
    process_flag(trap_exit, true),
    Player ! {parity_opened, Answer},
    parent(Answer).

parent(Answer) ->
    receive
        parity_stop ->
            case Answer of
                {ok, Sup} -> exit(Sup, shutdown);
                _ -> ok
            end,
            parent(Answer);
        parity_done -> ok;
        _ -> parent(Answer)
    end.

%% supervisor:init/1, inside the supervisor: from here on it is traced.
init({Player, Flags, Children}) ->
    Player ! {parity_init, self()},
    receive parity_go -> ok end,
    {ok, {Flags, Children}}.

close(#player{sup = Sup, parent = Parent, children = Children, asked = Asked}) ->
    [exit(Pid, kill) || Pid <- [Sup, Parent | maps:keys(Asked)] ++ [P || #child{pid = P} <- maps:values(Children)], is_pid(Pid)],
    ok.

%% What was ordered, a line each; or why the tree is refused.
orders(#player{refused = none, orders = Orders}) -> lists:reverse(Orders);
orders(#player{refused = Why}) -> ["tree refused: " ++ parity_text:init_fault(Why)].

%% The calls of the supervisor that are traced.
trace() ->
    Calls = [{parity_job, start, 2}, {erlang, exit, 2}, {gen, reply, 2}, {proc_lib, init_ack, 2},
             {gen_server, cast, 2}, {supervisor, handle_cast, 2}],
    [begin
         {module, Module} = code:ensure_loaded(Module),
         1 = erlang:trace_pattern(Call, true, [])
     end || {Module, _, _} = Call <- Calls],
    ok.

%% What a generator of scripts has to know.
view(#player{} = S) ->
    #{simple => S#player.simple, starting => S#player.starting, is_open => S#player.is_open, end_reason => S#player.end_reason,
      children => [{N, C#child.state, C#child.name} || {N, C} <- lists:sort(maps:to_list(S#player.children))],
      killed => [{N, (maps:get(N, S#player.children))#child.why} || N <- S#player.killed],
      restarting => maps:to_list(S#player.restarting)}.

%% The messages that wait.
queue(Sup) ->
    case process_info(Sup, messages) of
        {messages, Messages} -> Messages;
        undefined -> []
    end.

%% --- Lines ---------------------------------------------------------------------------------------------------

%% Plays a line: {ok, State}; {no, Why} where it can't be played or what OTP would do isn't to be compared; or
%% {odd, Why} where it was played and isn't to be compared, and the play is over.
play(Line, S) ->
    Words = parity_text:words(Line),
    case why_not(Words, S) of
        none ->
            After = settle(do(Words, S)),
            case After#player.odd of
                none -> {ok, After};
                Why -> {odd, Why}
            end;
        Why -> {no, Why}
    end.

%% A killed process has ended: its end has to be the next line. The clock may go on before, to the kill's time.
why_not(["at" | _], _S) -> none;
why_not(["exit", P, R], S) ->
    N = list_to_integer(P),
    case S#player.children of
        #{N := #child{state = killed, why = Why}} ->
            case {hd(S#player.killed), Why} of
                {N, R} -> none;
                {N, _} -> "it ended otherwise";
                _ -> "another was killed before"
            end;
        #{N := #child{state = gone}} -> "it ended before";
        #{N := #child{state = State}} -> killed_first(S, count_waits_for(State, S));
        _ -> "no such process"
    end;
why_not(Words, S) -> killed_first(S, why_not_so(Words, S)).

killed_first(S, Why) ->
    case S#player.killed of
        [] -> Why;
        _ -> "a killed process has ended"
    end.

%% count_children asks whether a process lives, and the program whether its end was taken.
count_waits_for(asked, _S) -> none;
count_waits_for(_State, S) ->
    case lists:member(["count"], [What || {_, What} <- maps:values(S#player.asked)]) andalso not S#player.simple of
        true -> "count is asked before this end is taken";
        false -> none
    end.

why_not_so([Note, P | _], S) when Note =:= "up"; Note =:= "ignore"; Note =:= "fail" ->
    case list_to_integer(P) =:= S#player.starting of
        true -> ignored_dynamic(Note, S);
        false -> "its start isn't awaited"
    end;
why_not_so(["stop"], #player{end_reason = none} = S) ->
    case queue(S#player.sup) of
        [] -> none;
        _ -> "a stop comes before what waits"
    end;
why_not_so(["stop"], _S) -> none;
why_not_so(["terminate", "#" ++ P], #player{simple = true} = S) ->
    N = list_to_integer(P),
    case S#player.children of
        #{N := #child{state = gone, slot = Slot}} ->
            case {S#player.restarting, place_started(S)} of
                {#{Slot := N}, _} -> none;
                {_, Slot} -> none;
                _ -> "terminate_child of a process that is gone"
            end;
        #{N := _} -> none;
        _ -> "no such process"
    end;
why_not_so(["count"], #player{is_minus = true}) -> "a restarting dynamic child that was terminated counts as -1";
why_not_so(["start"], #player{simple = false}) -> "start_child without a specification";
why_not_so(["start", _ | _], #player{simple = true}) -> "start_child with a specification";
why_not_so(_, _) -> none.

%% The place of the dynamic child whose start is awaited.
place_started(#player{starting = none}) -> none;
place_started(#player{starting = N, children = Children}) -> (maps:get(N, Children))#child.slot.

ignored_dynamic("ignore", #player{simple = true} = S) ->
    #child{slot = Slot} = maps:get(S#player.starting, S#player.children),
    case [N || {N, #child{slot = Other}} <- maps:to_list(S#player.children), Other =:= Slot, N < S#player.starting] of
        [] -> none;
        _ -> "a dynamic child whose restart is ignored"
    end;
ignored_dynamic(_, _) -> none.

do(["at", T], S) ->
    Reading = list_to_integer(T),
    Wait = S#player.clock + Reading - erlang:monotonic_time(millisecond),
    timer:sleep(max(Wait, 0)),
    S#player{reading = Reading};
do(["up", P], S) ->
    N = list_to_integer(P),
    #child{name = Name} = C = maps:get(N, S#player.children),
    parity_job:answer(S#player.sup, {up, traps(Name)}),
    C1 = case C#child.pid of
             undefined -> receive {parity_born, Pid} -> C#child{pid = Pid, state = up} end;
             _ -> C
         end,
    put_child(N, C1, S#player{starting = none, restarting = maps:remove(C#child.slot, S#player.restarting)});
do(["ignore", P], S) ->
    N = list_to_integer(P),
    #child{} = C = maps:get(N, S#player.children),
    parity_job:answer(S#player.sup, ignore),
    put_child(N, C#child{state = gone}, S#player{starting = none});
do(["fail", P, R], S) ->
    N = list_to_integer(P),
    #child{} = C = maps:get(N, S#player.children),
    parity_job:answer(S#player.sup, {fail, parity_text:reason(R)}),
    put_child(N, C#child{state = gone}, failed_restart(N, C, S#player{starting = none}));
do(["exit", P, R], S) ->
    N = list_to_integer(P),
    do_exit(N, R, maps:get(N, S#player.children), S);
do(["stop"], S) ->
    stop(S),
    S;
do(Call, S) ->
    N = S#player.calls + 1,
    Slot = S#player.slots + 1,
    Player = self(),
    Sup = S#player.sup,
    Request = request(Call, Slot, S),
    Caller = spawn(fun() -> Player ! {parity_called, self(), catch Request(Sup)} end),
    S#player{calls = N, slots = Slot, asked = maps:put(Caller, {N, Call}, S#player.asked)}.

%% Under simple_one_for_one the number that died stays the name of a child whose restart failed.
failed_restart(_N, #child{slot = undefined}, S) -> S;
failed_restart(N, #child{slot = Slot}, S) ->
    case [M || {M, #child{slot = Other, pid = Pid}} <- maps:to_list(S#player.children), Other =:= Slot, M < N, Pid =/= undefined] of
        [] -> S;
        Before -> S#player{restarting = maps:put(Slot, lists:max(Before), S#player.restarting)}
    end.

%% A process whose name says so doesn't trap exits: it ends as it is asked to.
traps(Name) -> string:find(atom_to_list(Name), "plain") =:= nomatch.

do_exit(N, _R, #child{state = killed} = C, S) -> put_child(N, C#child{state = gone}, S#player{killed = tl(S#player.killed)});
do_exit(N, R, #child{state = starting} = C, S) ->
    parity_job:answer(S#player.sup, {dies, parity_text:reason(R)}),
    Pid = receive {parity_born, Born} -> Born end,
    await_end(Pid),
    put_child(N, C#child{pid = Pid, state = gone}, S);
do_exit(N, R, #child{pid = Pid} = C, S) ->
    Pid ! {parity_exit, parity_text:reason(R)},
    await_end(Pid),
    put_child(N, C#child{state = gone}, S).

await_end(Pid) ->
    Monitor = monitor(process, Pid),
    receive {'DOWN', Monitor, process, Pid, _} -> ok end.

stop(#player{is_open = true, parent = Parent}) -> Parent ! parity_stop;
stop(#player{parent = Parent}) -> exit(Parent, shutdown).

request(["start"], Slot, _S) -> fun(Sup) -> supervisor:start_child(Sup, [Slot]) end;
request(["start" | Spec], _, _S) ->
    Child = parity_text:spec(Spec, self()),
    fun(Sup) -> supervisor:start_child(Sup, Child) end;
request(["restart", Id], _, _S) -> fun(Sup) -> supervisor:restart_child(Sup, parity_text:id(Id)) end;
request(["delete", Id], _, _S) -> fun(Sup) -> supervisor:delete_child(Sup, parity_text:id(Id)) end;
request(["get", Id], _, _S) -> fun(Sup) -> supervisor:get_childspec(Sup, parity_text:id(Id)) end;
request(["terminate", "#" ++ P], _, S) ->
    Pid = pid_of(list_to_integer(P), S),
    fun(Sup) -> supervisor:terminate_child(Sup, Pid) end;
request(["terminate", Id], _, _S) -> fun(Sup) -> supervisor:terminate_child(Sup, parity_text:id(Id)) end;
request(["which"], _, _S) -> fun supervisor:which_children/1;
request(["count"], _, _S) -> fun supervisor:count_children/1.

%% A number that no process has stands for one that never was of this supervisor.
pid_of(N, S) ->
    case S#player.children of
        #{N := #child{pid = Pid}} when is_pid(Pid) -> Pid;
        _ -> self()
    end.

put_child(N, C, S) -> S#player{children = maps:put(N, C, S#player.children)}.

%% --- What the supervisor did ---------------------------------------------------------------------------------

settle(S) ->
    S1 = take_trace(quiet(S, 0)),
    case S1#player.end_reason of
        none -> S1;
        _ -> refuse_all(S1)
    end.

%% Waits until the supervisor waits, several looks in a row, and all that it did is in the trace.
quiet(S, 8) ->
    Sup = S#player.sup,
    Ref = erlang:trace_delivered(Sup),
    receive {trace_delivered, Sup, Ref} -> S end;
quiet(S, Looks) ->
    erlang:yield(),
    case waits(S) of
        true -> quiet(S, Looks + 1);
        false -> quiet(S, 0)
    end.

waits(#player{sup = Sup, asked = Asked}) ->
    Callers = [process_info(P, status) || P <- maps:keys(Asked)],
    Info = process_info(Sup, [status, message_queue_len, current_function]),
    lists:all(fun(C) -> C =:= {status, waiting} orelse C =:= undefined end, Callers) andalso is_waiting(Info).

is_waiting(undefined) -> true;
is_waiting([{status, waiting}, {message_queue_len, 0}, _]) -> true;
is_waiting([{status, waiting}, _, {_, {parity_job, _, _}}]) -> true;
is_waiting([{status, waiting}, _, {_, {supervisor, shutdown, _}}]) -> true;
is_waiting([{status, waiting}, _, {_, {supervisor, wait_dynamic_children, _}}]) -> true;
is_waiting(_) -> false.

take_trace(#player{sup = Sup} = S) ->
    receive
        {trace, Sup, call, {parity_job, start, [_, Name]}} -> take_trace(start_seen(Name, S));
        {trace, Sup, call, {erlang, exit, [Pid, Signal]}} -> take_trace(signal_seen(Pid, Signal, S));
        {trace, Sup, call, {gen, reply, [{Caller, _}, Reply]}} -> take_trace(reply_seen(Caller, Reply, S));
        {trace, Sup, call, {proc_lib, init_ack, [_, {ok, _}]}} -> take_trace((order("ready", S))#player{is_open = true});
        {trace, Sup, call, {proc_lib, init_ack, [_, {error, Why}]}} -> take_trace(S#player{refused = Why});
        {trace, Sup, call, {gen_server, cast, [_, {try_again_restart, Id}]}} -> take_trace(retry_put(Id, S));
        {trace, Sup, call, {supervisor, handle_cast, [{try_again_restart, Id}, _]}} -> take_trace(retry_taken(Id, S));
        {trace, Sup, exit, Reason} -> take_trace(end_seen(Reason, S));
        {trace, Sup, _, _} -> take_trace(S);
        {trace, Sup, _, _, _} -> take_trace(S);
        {parity_called, _, _} -> take_trace(S);
        {parity_opened, _} -> take_trace(S)
    after 0 -> S
    end.

%% Each failed restart puts a message, which names the child alone: while an older one waits, that one is taken for it.
retry_put(Id, #player{retries = Retries} = S) ->
    case Retries of
        #{Id := _} -> S#player{odd = "an out-of-date retry hits a later restart"};
        _ -> S#player{retries = Retries#{Id => waits}}
    end.

retry_taken(Id, S) -> S#player{retries = maps:remove(Id, S#player.retries)}.

order(Text, S) -> S#player{orders = [lists:flatten(Text) | S#player.orders]}.

start_seen(Name, S) ->
    N = S#player.numbers + 1,
    C = case S#player.simple of
            true -> #child{name = '-', slot = Name};
            false -> #child{name = Name}
        end,
    S1 = S#player{numbers = N, starting = N},
    order(io_lib:format("start ~s #~b", [C#child.name, N]), put_child(N, C, S1)).

%% A signal to a process that has ended reaches nobody, and is no order.
signal_seen(Pid, Signal, S) ->
    case number_of(Pid, S) of
        none -> S;
        N -> signal_to(N, (maps:get(N, S#player.children))#child{is_told = true}, Signal, S)
    end.

signal_to(N, #child{state = gone} = C, _Signal, S) -> put_child(N, C, S);
signal_to(N, C, shutdown, S) ->
    S1 = order_at(N, "ask", C, S),
    case traps(C#child.name) of
        true -> put_child(N, C#child{state = asked}, S1);
        false -> ended(N, "shutdown", C, S1)
    end;
signal_to(N, C, kill, S) -> ended(N, "killed", C, order_at(N, "kill", C, S)).

%% The process ends at once; the line that says so is still to come.
ended(N, Why, C, S) -> put_child(N, C#child{state = killed, why = Why}, S#player{killed = S#player.killed ++ [N]}).

%% Dynamic children are told to stop in no defined order; here they are told in the order of their first starts.
order_at(N, Word, #child{name = Name, slot = Slot}, S) ->
    Text = lists:flatten(io_lib:format("~s ~s #~b", [Word, Name, N])),
    case S#player.simple of
        false -> order(Text, S);
        true -> S#player{orders = sorted(Word, Slot, Text, S#player.orders, S)}
    end.

sorted(Word, Slot, Text, [Last | Orders], S) ->
    case string:lexemes(Last, " ") of
        [Word, _, "#" ++ P] ->
            #child{slot = Other} = maps:get(list_to_integer(P), S#player.children),
            case Other > Slot of
                true -> [Last | sorted(Word, Slot, Text, Orders, S)];
                false -> [Text, Last | Orders]
            end;
        _ -> [Text, Last | Orders]
    end;
sorted(_, _, Text, [], _S) -> [Text].

reply_seen(Caller, Reply, S) ->
    {{N, Call}, Asked} = maps:take(Caller, S#player.asked),
    S1 = S#player{asked = Asked},
    order(io_lib:format("reply ~b ~s", [N, reply(Call, Reply, S1)]), after_reply(Call, Reply, S1)).

%% A dynamic child that was restarting and is terminated is counted by OTP as -1 from then on. One that was told
%% nothing had gone before: OTP answers ok there too.
after_reply(["terminate", "#" ++ P], ok, #player{simple = true} = S) ->
    N = list_to_integer(P),
    case [Slot || {Slot, M} <- maps:to_list(S#player.restarting), M =:= N] of
        [Slot] -> S#player{restarting = maps:remove(Slot, S#player.restarting), is_minus = true};
        [] ->
            case S#player.children of
                #{N := #child{is_told = true} = C} -> put_child(N, C#child{is_told = false}, S);
                _ -> S#player{odd = "terminate_child of a process that is gone"}
            end
    end;
after_reply(_, _, S) -> S.

reply(_, ok, _S) -> "ok";
reply(_, {ok, undefined}, _S) -> "ok undefined";
reply(_, {ok, Pid}, S) when is_pid(Pid) -> io_lib:format("ok #~b", [number_of(Pid, S)]);
reply(_, {ok, #{} = Spec}, _S) -> parity_text:spec_text(Spec);
reply(["count"], Counts, _S) -> parity_text:count(Counts);
reply(["which"], Children, S) -> which(Children, S);
reply(_, {error, {already_started, Pid}}, S) -> io_lib:format("error already_started #~b", [number_of(Pid, S)]);
reply(_, {error, Word}, _S)
  when Word =:= not_found; Word =:= running; Word =:= restarting; Word =:= simple_one_for_one; Word =:= already_present ->
    io_lib:format("error ~s", [Word]);
reply(["start"], {error, Reason}, _S) -> io_lib:format("error start ~s", [parity_text:reason_text(Reason)]);
reply(["start" | _], {error, {bad_combination, _} = Why}, _S) -> io_lib:format("error bad_spec ~s", [parity_text:spec_fault(Why)]);
reply(["start" | _], {error, {Reason, Child}}, _S) when element(1, Child) =:= child ->
    io_lib:format("error start ~s", [parity_text:reason_text(Reason)]);
reply(["restart" | _], {error, Reason}, _S) -> io_lib:format("error start ~s", [parity_text:reason_text(Reason)]).

%% OTP lists children in reverse start order, and dynamic ones in none; here they are listed in start order.
which(Children, #player{simple = false} = S) ->
    parity_text:which(lists:reverse(Children), fun(Child) -> process_text(Child, S) end);
which(Children, S) ->
    Live = [{(maps:get(number_of(Pid, S), S#player.children))#child.slot, Line} || {_, Pid, _, _} = Line <- Children, is_pid(Pid)],
    Waiting = [Line || {_, restarting, _, _} = Line <- Children],
    Slots = maps:keys(S#player.restarting),
    true = length(Slots) =:= length(Waiting),
    Sorted = [Line || {_, Line} <- lists:sort(Live ++ lists:zip(Slots, Waiting))],
    parity_text:which(Sorted, fun(Child) -> process_text(Child, S) end).

process_text(Pid, S) when is_pid(Pid) -> io_lib:format("#~b", [number_of(Pid, S)]);
process_text(Word, _S) -> atom_to_list(Word).

%% What waits is answered by the end of the supervisor; the program tells that before the end.
end_seen(Reason, #player{is_open = false, numbers = 0, refused = Why} = S) when Why =/= none ->
    S#player{end_reason = Reason};
end_seen(Reason, S) ->
    S1 = refuse_all(S),
    order(io_lib:format("end ~s", [parity_text:reason_text(Reason)]), S1#player{end_reason = Reason, refused = none}).

refuse_all(S) ->
    Waiting = lists:sort([N || {N, _} <- maps:values(S#player.asked)]),
    lists:foldl(fun(N, S1) -> order(io_lib:format("reply ~b noproc", [N]), S1) end, S#player{asked = #{}}, Waiting).

number_of(Pid, S) ->
    case [N || {N, #child{pid = P}} <- maps:to_list(S#player.children), P =:= Pid] of
        [N] -> N;
        [] -> none
    end.
