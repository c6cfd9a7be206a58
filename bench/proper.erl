#!/usr/bin/env escript
%% Looks for a test that a server with memcached's protocol fails, by PropEr's parallel commands and
%% a model of the cache. It needs Erlang and PropEr; on Debian: apt-get install erlang-proper
%%
%%     bench/proper.erl PORT SECONDS
%%
%% It tests until a test fails, which it prints, or the time is over. Its last line is `found
%% SECONDS RUNS` or `none SECONDS RUNS`: the time without the start of Erlang and without shrinking,
%% and how often a test was run.
-module(memcached_model).
-mode(compile).
-compile({no_auto_import, [get/1]}).
-import(proper_types, [frequency/1, integer/2, oneof/1]).

-export([main/1]).
-export([initial_state/0, command/1, precondition/2, next_state/3, postcondition/3]).
-export([set/3, add/3, replace/3, append/3, prepend/3, cas/4, get/1, gets/1, incr/2, decr/2,
         delete/1, touch/1]).

%% An item, and the results of each gets that has shown it as it is now.
-record(item, {flags, body, shown = []}).
%% The items that are there by their keys, and the results of all gets with their keys.
-record(cache, {items = #{}, shown = []}).

%% Keys are caches of their own, so one is enough, and the two processes meet at it more often.
-define(KEYS, [<<"a">>]).
%% How often each test is run, since a race seldom shows at once.
-define(TIMES, 10).

main([Port, Seconds]) ->
    ets:new(?MODULE, [named_table, public]),
    ets:insert(?MODULE, [{runs, 0}, {taken, 3}]),
    [ets:insert(?MODULE, {Number, connected(list_to_integer(Port))}) || Number <- [1, 2, 3]],
    Main = self(),
    Began = erlang:monotonic_time(millisecond),
    spawn_link(fun() -> put(connection, ets:lookup_element(?MODULE, 1, 2)), Main ! looked() end),
    Outcome = receive found -> found after 1000 * list_to_integer(Seconds) -> none end,
    Took = (erlang:monotonic_time(millisecond) - Began) / 1000,
    io:format("~n~s ~.3f ~b~n", [Outcome, Took, ets:lookup_element(?MODULE, runs, 2)]).

%% PropEr makes 100 tests, from few commands to many, and then 100 others.
looked() ->
    Property = proper:forall(proper_statem:parallel_commands(?MODULE), fun is_passed/1),
    case proper:quickcheck(Property, [quiet, noshrink]) of
        true -> looked();
        false -> found
    end.

is_passed(Commands) -> lists:all(fun(_) -> is_explained(Commands) end, lists:seq(1, ?TIMES)).

is_explained(Commands) ->
    ets:update_counter(?MODULE, runs, 1),
    [delete(Key) || Key <- ?KEYS],
    {Before, Parallel, Result} = proper_statem:run_parallel_commands(?MODULE, Commands),
    [io:format("~p~n~p~n~p~n~p~n", [Commands, Before, Parallel, Result]) || Result =/= ok],
    Result =:= ok.

%%% The model

initial_state() -> #cache{}.

command(#cache{shown = Shown}) ->
    Stores = [{1, {call, ?MODULE, Verb, [key(), flags(), body()]}}
              || Verb <- [set, add, replace, append, prepend]],
    Counts = [{1, {call, ?MODULE, Verb, [key(), integer(1, 9)]}} || Verb <- [incr, decr]],
    Others = [{1, {call, ?MODULE, Verb, [key()]}} || Verb <- [get, gets, delete, touch]],
    %% The number of a cas is that of an earlier gets: when commands are made, its variable.
    Cas = [{1, {call, ?MODULE, cas, [Key, flags(), body(), Gets]}} || {Key, Gets} <- Shown],
    frequency(Stores ++ Counts ++ Others ++ Cas).

key() -> oneof(?KEYS).
flags() -> integer(0, 3).
body() -> oneof([<<"1">>, <<"20">>, <<"345">>, <<"ab">>, <<"xyz">>]).

precondition(_Cache, _Call) -> true.

next_state(Cache, Result, {call, _, Verb, [Key | Rest]}) ->
    {_, Item} = acted(Verb, Rest, item_of(Key, Cache)),
    changed(Cache, Key, Verb, Item, Result).

changed(Cache, Key, gets, #item{} = Item, Result) ->
    Shown = Item#item{shown = [Result | Item#item.shown]},
    Cache#cache{items = maps:put(Key, Shown, Cache#cache.items),
                shown = [{Key, Result} | Cache#cache.shown]};
changed(Cache, Key, _, none, _) -> Cache#cache{items = maps:remove(Key, Cache#cache.items)};
changed(Cache, Key, _, Item, _) -> Cache#cache{items = maps:put(Key, Item, Cache#cache.items)}.

item_of(Key, Cache) -> maps:get(Key, Cache#cache.items, none).

%% No model can say which number a gets shows. It is the one that another gets has shown of the item
%% as it is, or else one that no gets has shown of this key.
postcondition(Cache, {call, _, gets, [Key]}, {Flags, Body, Number} = Result) ->
    case item_of(Key, Cache) of
        #item{flags = Flags, body = Body, shown = []} ->
            [] =:= [old || {At, {_, _, Its}} <- Cache#cache.shown, At =:= Key, Its =:= Number];
        #item{flags = Flags, body = Body, shown = [Before | _]} -> Before =:= Result;
        _ -> false
    end;
postcondition(Cache, {call, _, Verb, [Key | Rest]}, Result) ->
    {Reply, _} = acted(Verb, Rest, item_of(Key, Cache)),
    Reply =:= Result.

%% What a command answers with this item there, or none, and what it leaves. A cas wins if its gets
%% has shown the item as it is: a variable when tests are made, and later the result.
acted(set, [Flags, Body], _) -> stored(Flags, Body);
acted(add, [Flags, Body], none) -> stored(Flags, Body);
acted(Verb, _, none) when Verb =:= get; Verb =:= gets -> {miss, none};
acted(Verb, _, none) when Verb =:= replace; Verb =:= append; Verb =:= prepend ->
    {<<"NOT_STORED">>, none};
acted(_, _, none) -> {<<"NOT_FOUND">>, none};
acted(add, _, Item) -> {<<"NOT_STORED">>, Item};
acted(replace, [Flags, Body], _) -> stored(Flags, Body);
acted(append, [_, Body], Item) -> stored(Item#item.flags, <<(Item#item.body)/binary, Body/binary>>);
acted(prepend, [_, Body], Item) ->
    stored(Item#item.flags, <<Body/binary, (Item#item.body)/binary>>);
acted(cas, [Flags, Body, Gets], Item) ->
    case lists:member(Gets, Item#item.shown) of
        true -> stored(Flags, Body);
        false -> {<<"EXISTS">>, Item}
    end;
acted(get, [], Item) -> {{Item#item.flags, Item#item.body}, Item};
acted(gets, [], Item) -> {a_number, Item};
acted(incr, [By], Item) -> counted(Item, fun(Number) -> Number + By end);
acted(decr, [By], Item) -> counted(Item, fun(Number) -> max(0, Number - By) end);
acted(delete, [], _) -> {<<"DELETED">>, none};
acted(touch, [], Item) -> {<<"TOUCHED">>, Item}.

stored(Flags, Body) -> {<<"STORED">>, #item{flags = Flags, body = Body}}.

%% What is shorter by a decr isn't filled up, as by faulty_server.c; memcached does so by spaces.
counted(#item{flags = Flags, body = Body} = Item, Change) ->
    case byte_size(Body) =< 20 andalso string:to_integer(Body) of
        {Number, <<>>} when Number < 1 bsl 64 ->
            Changed = integer_to_binary(Change(Number) rem (1 bsl 64)),
            {Changed, #item{flags = Flags, body = Changed}};
        _ -> {<<"CLIENT_ERROR cannot increment or decrement non-numeric value">>, Item}
    end.

%%% The commands

set(Key, Flags, Body) -> store("set", Key, Flags, Body, []).
add(Key, Flags, Body) -> store("add", Key, Flags, Body, []).
replace(Key, Flags, Body) -> store("replace", Key, Flags, Body, []).
append(Key, Flags, Body) -> store("append", Key, Flags, Body, []).
prepend(Key, Flags, Body) -> store("prepend", Key, Flags, Body, []).

%% The gets of a cas may have missed beside the other process's commands. No item has the number 0.
cas(Key, Flags, Body, miss) -> store("cas", Key, Flags, Body, " 0");
cas(Key, Flags, Body, {_, _, Number}) -> store("cas", Key, Flags, Body, [" ", Number]).

store(Verb, Key, Flags, Body, Number) ->
    Size = integer_to_list(byte_size(Body)),
    ask([Verb, " ", Key, " ", integer_to_list(Flags), " 0 ", Size, Number, "\r\n", Body, "\r\n"]).

get(Key) -> shown(ask(["get ", Key, "\r\n"])).
gets(Key) -> shown(ask(["gets ", Key, "\r\n"])).

shown(<<"END">>) -> miss;
shown(Line) ->
    [<<"VALUE">>, _Key, Flags, _Size | Number] = binary:split(Line, <<" ">>, [global]),
    Body = line(),
    <<"END">> = line(),
    list_to_tuple([binary_to_integer(Flags), Body | Number]).

incr(Key, By) -> ask(["incr ", Key, " ", integer_to_list(By), "\r\n"]).
decr(Key, By) -> ask(["decr ", Key, " ", integer_to_list(By), "\r\n"]).
delete(Key) -> ask(["delete ", Key, "\r\n"]).
touch(Key) -> ask(["touch ", Key, " 0\r\n"]).

%%% The connections: one for what comes first, and one for each of the two processes after it

connected(Port) ->
    Options = [binary, {packet, line}, {active, false}, {nodelay, true}],
    {ok, Connection} = gen_tcp:connect({127, 0, 0, 1}, Port, Options),
    Connection.

%% That of this process. Each test has two new ones, which take the second and third in turns.
connection() ->
    case erlang:get(connection) of
        undefined ->
            Taken = ets:update_counter(?MODULE, taken, {2, 1, 3, 2}),
            put(connection, ets:lookup_element(?MODULE, Taken, 2)),
            connection();
        Connection -> Connection
    end.

ask(Request) ->
    ok = gen_tcp:send(connection(), Request),
    line().

%% A line without its end. A server that has gone is no finding, so Erlang ends then.
line() ->
    case gen_tcp:recv(connection(), 0) of
        {ok, Line} -> binary:part(Line, 0, byte_size(Line) - 2);
        {error, Reason} ->
            io:format(standard_error, "bench/proper.erl: the server: ~p~n", [Reason]),
            halt(1)
    end.
