#!/usr/bin/env escript
%% -*- erlang -*-
%% Prints the tree of supervisors of an application that runs, as a term that `otp import` reads.
%%
%%   escript walk.escript APP                          starts APP here, and walks it
%%   escript walk.escript NODE COOKIE APP [NAME]       walks APP of a node that runs
%%   escript walk.escript NODE COOKIE --process NAME   walks the supervisor that is registered so
%%
%% Of a start function the arguments aren't printed, which may hold secrets, but how many they are.

main(["--process", Name]) ->
    print(walk(node(), list_to_atom(Name)));
main([App]) ->
    started(application:ensure_all_started(list_to_atom(App))),
    print(walk(node(), top(node(), list_to_atom(App))));
main([Node, Cookie, "--process", Name]) ->
    print(walk(connect(Node, Cookie), list_to_atom(Name)));
main([Node, Cookie, App]) ->
    At = connect(Node, Cookie),
    print(walk(At, top(At, list_to_atom(App))));
main(_) ->
    stop("usage: walk.escript [NODE COOKIE] APP, or walk.escript [NODE COOKIE] --process NAME").

started({ok, _}) -> ok;
started({error, Why}) -> stop(io_lib:format("not started: ~p", [Why])).

stop(Text) ->
    io:format(standard_error, "~s~n", [Text]),
    halt(1).

print({_, _} = Tree) -> io:format("~p.~n", [{ok, Tree}]).

%% A node of its own, under a name that no other has, which knows the other's cookie.
connect(Node, Cookie) ->
    At = list_to_atom(Node),
    Own = "otp_walk_" ++ os:getpid(),
    Kind = case string:find(Node, ".") of nomatch -> shortnames; _ -> longnames end,
    {ok, _} = net_kernel:start([list_to_atom(Own), Kind]),
    erlang:set_cookie(At, list_to_atom(Cookie)),
    case net_kernel:connect_node(At) of
        true -> At;
        _ -> stop("no node answers by the name " ++ Node)
    end.

on(Node, Module, Function, Args) when Node =:= node() -> apply(Module, Function, Args);
on(Node, Module, Function, Args) -> erpc:call(Node, Module, Function, Args).

%% The topmost supervisor of an application: the one process that its master holds.
top(Node, App) ->
    case on(Node, application_controller, get_master, [App]) of
        undefined -> stop(io_lib:format("~s doesn't run", [App]));
        Master ->
            case on(Node, application_master, get_child, [Master]) of
                {Top, _} when is_pid(Top) -> Top;
                _ -> stop(io_lib:format("~s has no supervisor", [App]))
            end
    end.

walk(Node, Top) ->
    State = on(Node, sys, get_state, [Top]),
    case is_supervisor(State) of
        true -> {flags(State), children(Node, Top, State)};
        false -> stop(io_lib:format("not a supervisor of OTP: ~P", [State, 8]))
    end.

%% The record `state` of supervisor.erl: with its name 12 fields since OTP 24, 11 before. A bridge has another one.
is_supervisor(State) ->
    is_tuple(State) andalso element(1, State) =:= state andalso tuple_size(State) >= 11.

flags(State) ->
    Flags = #{strategy => element(3, State), intensity => element(6, State), period => element(7, State)},
    case tuple_size(State) of
        11 -> Flags;
        _ -> Flags#{auto_shutdown => element(10, State)}
    end.

children(Node, Top, State) ->
    case element(3, State) of
        simple_one_for_one -> [template(Row) || Row <- rows(element(4, State))];
        _ ->
            %% The last one that was started comes first in the answer.
            [child(Node, Top, Row) || Row <- lists:reverse(on(Node, supervisor, which_children, [Top]))]
    end.

child(Node, Top, {Id, Pid, Type, _Modules}) ->
    {ok, Spec} = on(Node, supervisor, get_childspec, [Top, Id]),
    case Type of
        supervisor when is_pid(Pid) -> below(Node, Pid, plain(Spec));
        _ -> plain(Spec)
    end.

%% What a supervisor below supervises. A bridge, and one that another library has made, is printed without it.
below(Node, Pid, Spec) ->
    State = on(Node, sys, get_state, [Pid]),
    case is_supervisor(State) of
        true -> Spec#{tree => {flags(State), children(Node, Pid, State)}};
        false -> Spec
    end.

plain(#{start := {M, F, A}} = Spec) when is_list(A) -> Spec#{start := {M, F, length(A)}};
plain(#{start := {M, F, _}} = Spec) -> Spec#{start := {M, F, undefined}}.

rows({_, Rows}) when is_map(Rows) -> maps:values(Rows);
rows(Rows) when is_list(Rows) -> Rows.

%% The child from which all are made: the record `child` of supervisor.erl.
template({child, _Pid, Id, {M, F, _}, Restart, Significant, Shutdown, Type, Modules}) ->
    #{id => Id, start => {M, F, undefined}, restart => Restart, significant => Significant,
      shutdown => Shutdown, type => Type, modules => Modules};
template({child, _Pid, Id, {M, F, _}, Restart, Shutdown, Type, Modules}) ->
    #{id => Id, start => {M, F, undefined}, restart => Restart, shutdown => Shutdown, type => Type, modules => Modules}.
