%% The children of the supervisor under test: processes that do what the player says.
%%
%% start/2 is what the supervisor calls. It runs inside the supervisor, as every start function does, and waits
%% until the player has read the line that says how the start goes. The player learns of the call by tracing it.
-module(parity_job).
-export([start/2, answer/2, define/1]).

%% Called by the supervisor, through the module that the specification names.
start(Player, _Name) ->
    await_answer(Player, none).

%% The player's answer to the start that the supervisor waits in: up, ignore, {fail, Reason}; or {dies, Reason},
%% for a process that ends before its start has succeeded.
answer(Supervisor, Answer) ->
    Supervisor ! {parity_answer, Answer}.

await_answer(Player, Child) ->
    receive
        {parity_answer, {up, Traps}} ->
            {ok, born(Player, Traps, Child)};
        {parity_answer, ignore} ->
            ignore;
        {parity_answer, {fail, Reason}} ->
            {error, Reason};
        {parity_answer, {dies, Reason}} ->
            Pid = born(Player, true, Child),
            Pid ! {parity_exit, Reason},
            await_answer(Player, Pid)
    end.

%% The child's process, linked to the supervisor; the player is told of it before the start returns.
born(Player, Traps, none) ->
    Self = self(),
    Pid = spawn_link(fun() -> begin_child(Self, Traps) end),
    receive {parity_ready, Pid} -> ok end,
    Player ! {parity_born, Pid},
    Pid;
born(_Player, _Traps, Pid) ->
    Pid.

begin_child(Supervisor, Traps) ->
    process_flag(trap_exit, Traps),
    Supervisor ! {parity_ready, self()},
    live().

%% A child that traps exits ends only when the player says so, or by a kill.
live() ->
    receive
        {parity_exit, Reason} -> exit(Reason);
        _ -> live()
    end.

%% Makes the module that a specification names as its start, so that OTP takes its default of `modules` from it. It
%% may take the place of the shell's module c, which nothing here uses, and of no other.
define(Module) ->
    case erlang:function_exported(Module, start, 2) of
        true -> ok;
        false -> load(Module)
    end.

load(Module) ->
    true = Module =:= c orelse code:which(Module) =:= non_existing,
    Forms = [{attribute, 1, module, Module}, {attribute, 1, export, [{start, 2}, {start, 3}]},
             start_function([player, id]), start_function([player, id, place])],
    {ok, Module, Code} = compile:forms(Forms, [nowarn_unused_vars]),
    {module, Module} = erlang:load_module(Module, Code),
    ok.

%% start(Player, .., Last) calls start(Player, Last) of this module. A dynamic child's last argument is its place.
start_function(Names) ->
    Args = [{var, 1, Name} || Name <- Names],
    Call = {call, 1, {remote, 1, {atom, 1, ?MODULE}, {atom, 1, start}}, [hd(Args), lists:last(Args)]},
    {function, 1, start, length(Args), [{clause, 1, Args, [], [Call]}]}.
