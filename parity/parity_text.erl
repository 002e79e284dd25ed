%% Texts: tree files, event lines and reasons as they are written, and OTP's terms for them.
-module(parity_text).
-export([tree/2, words/1, reason/1, reason_text/1, spec/2, id/1, which/2, count/1, spec_text/1, init_fault/1, spec_fault/1]).

%% A tree file, as flags and specifications for supervisor:init/1. Keys that the file leaves out are left out here
%% too, so that their defaults are OTP's. It reads the TOML that this repository's scripts are written in.
tree(Text, Player) ->
    Flat = unicode:characters_to_list(Text),
    Table = keys(Flat, []),
    Flags = maps:from_list([flag(K, V) || {K, V} <- Table, K =/= "child"]),
    Children = [child(maps:from_list(C), Player) || C <- proplists:get_value("child", Table, [])],
    {Flags, Children}.

flag("strategy", V) -> {strategy, list_to_atom(V)};
flag("auto_shutdown", V) -> {auto_shutdown, list_to_atom(V)};
flag(K, V) -> {list_to_atom(K), V}.

child(C, Player) ->
    #{"id" := Id, "start" := Start} = C,
    Rest = maps:without(["id", "start"], C),
    Module = list_to_atom(Start),
    parity_job:define(Module),
    maps:from_list([{id, list_to_atom(Id)}, {start, {Module, start, [Player, list_to_atom(Id)]}}
                    | [key(K, V) || {K, V} <- maps:to_list(Rest)]]).

key("modules", "dynamic") -> {modules, dynamic};
key("modules", V) -> {modules, [list_to_atom(M) || M <- V]};
key(K, V) when is_list(V) -> {list_to_atom(K), list_to_atom(V)};
key(K, V) -> {list_to_atom(K), V}.

%% key = value, over and over
keys(Text, Done) ->
    case skip(Text) of
        [] -> lists:reverse(Done);
        Rest ->
            {Key, Rest1} = word(Rest, []),
            {Value, Rest2} = value(after_sign($=, Rest1)),
            keys(Rest2, [{Key, Value} | Done])
    end.

value([$" | T]) ->
    {String, [$" | Rest]} = lists:splitwith(fun(C) -> C =/= $" end, T),
    {String, Rest};
value([$[ | T]) -> items($], fun value/1, skip(T), []);
value([${ | T]) -> items($}, fun pair/1, skip(T), []);
value("true" ++ T) -> {true, T};
value("false" ++ T) -> {false, T};
value(T) ->
    {Digits, Rest} = word(T, []),
    {list_to_integer(Digits), Rest}.

pair(T) ->
    {Key, Rest} = word(T, []),
    {Value, Rest1} = value(after_sign($=, Rest)),
    {{Key, Value}, Rest1}.

items(End, _Item, [End | T], Done) -> {lists:reverse(Done), T};
items(End, Item, T, Done) ->
    {Value, Rest} = Item(T),
    case skip(Rest) of
        [$, | Rest1] -> items(End, Item, skip(Rest1), [Value | Done]);
        Rest1 -> items(End, Item, Rest1, [Value | Done])
    end.

after_sign(Sign, T) ->
    [Sign | Rest] = skip(T),
    skip(Rest).

skip([C | T]) when C =:= $\s; C =:= $\n -> skip(T);
skip(T) -> T.

word([C | T], Done) when C >= $a, C =< $z; C >= $0, C =< $9; C =:= $_; C =:= $- -> word(T, [C | Done]);
word(T, Done) -> {lists:reverse(Done), T}.

words(Line) -> string:lexemes(Line, " ").

id(Word) -> list_to_atom(Word).

%% The words of `start`, as a specification whose modules are left to OTP's default.
spec([Id, Start, Restart, Significant, Shutdown, Type], Player) ->
    Module = list_to_atom(Start),
    parity_job:define(Module),
    #{id => id(Id), start => {Module, start, [Player, id(Id)]}, restart => list_to_atom(Restart),
      significant => list_to_atom(Significant), shutdown => shutdown(Shutdown), type => list_to_atom(Type)}.

shutdown("brutal_kill") -> brutal_kill;
shutdown("infinity") -> infinity;
shutdown(Word) -> list_to_integer(Word).

%% A printed reason as the term with which a process ends, and back.
reason("shutdown:" ++ Text) -> {shutdown, list_to_atom(Text)};
reason("error:" ++ Text) -> {error, list_to_atom(Text)};
reason(Word) -> list_to_atom(Word).

reason_text({shutdown, {failed_to_start_child, Id, _Reason}}) -> io_lib:format("shutdown:failed_to_start_child/~s", [Id]);
reason_text({shutdown, Text}) -> io_lib:format("shutdown:~s", [Text]);
reason_text({error, Text}) -> io_lib:format("error:~s", [Text]);
reason_text(Word) when is_atom(Word) -> atom_to_list(Word).

%% What which_children answers, in the order in which it is to be told; Name turns what stands for a process into text.
which(Children, Name) ->
    ["which" | [io_lib:format(" ~s,~s,~s,~s", [Id, Name(Child), Type, modules(Modules)])
                || {Id, Child, Type, Modules} <- Children]].

count(Counts) ->
    io_lib:format("count specs ~b active ~b supervisors ~b workers ~b",
                  [proplists:get_value(K, Counts) || K <- [specs, active, supervisors, workers]]).

spec_text(#{id := Id, start := {Module, _, _}, restart := Restart, significant := Significant, shutdown := Shutdown,
            type := Type, modules := Modules}) ->
    io_lib:format("spec ~s start ~s restart ~s significant ~s shutdown ~s type ~s modules ~s",
                  [Id, Module, Restart, Significant, shutdown_text(Shutdown), Type, modules(Modules)]).

shutdown_text(Word) when is_atom(Word) -> atom_to_list(Word);
shutdown_text(Milliseconds) -> integer_to_list(Milliseconds).

modules(dynamic) -> "dynamic";
modules([]) -> "-";
modules(Names) -> lists:join("+", [atom_to_list(M) || M <- Names]).

%% Why supervisor:start_link/2 refuses flags and specifications, as the number that the program prints.
init_fault({start_spec, Why}) -> spec_fault(Why);
init_fault({bad_start_spec, _}) -> "E6";
init_fault({supervisor_data, {invalid_intensity, _}}) -> "E1";
init_fault({supervisor_data, {invalid_period, _}}) -> "E1";
init_fault({supervisor_data, {invalid_strategy, _}}) -> "E13";
init_fault({supervisor_data, {invalid_auto_shutdown, _}}) -> "E13".

spec_fault({duplicate_child_name, _}) -> "E3";
spec_fault({bad_combination, [{restart, permanent} | _]}) -> "E4";
spec_fault({bad_combination, [{auto_shutdown, never} | _]}) -> "E5";
spec_fault(missing_id) -> "E12";
spec_fault(missing_start) -> "E12";
spec_fault({invalid_restart_type, _}) -> "E13";
spec_fault({invalid_child_type, _}) -> "E13";
spec_fault({invalid_significant, _}) -> "E13";
spec_fault({invalid_shutdown, _}) -> "E13".
