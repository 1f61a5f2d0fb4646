#!/usr/bin/env escript
-mode(compile).
%% Writes per.txt beside this script: one line TYPE;TEXT;HEX for each vector of unaligned PER.
%% The types are those of DateTime.asn1, compiled into a temporary folder. A vector is a date, a time or both, or a
%% duration, as numbers. From these come the value that is handed to Erlang's encoder, and the type and the text.

%% A date:  {Family, Form, Year, A, B}. Family is basic (Basic and Proleptic) or any (Negative and L5 to L9).
%%          A and B are what follows the year in the form, or none.
%% A time:  {Form, N, H, M, S, F, Zone}. N is the number of fraction digits, 0 without.
%% A zone:  l, z, or {Sign, Hours, Minutes}.
%% A duration: {duration, [{Name, Number}], Fraction}. Fraction is none, or {N, F} with N digits.

main([]) ->
    Here = filename:dirname(filename:absname(escript:script_name())),
    Temp = string:trim(os:cmd("mktemp -d")),
    try
        compile(filename:join(Here, "DateTime.asn1"), Temp),
        Made = lists:flatmap(fun lines/1, vectors()),
        Lines = first_of_equals([L || L <- Made, length(L) =< 160]),
        [error({absent, L}) || L <- checked(), not lists:member(L, Lines)],
        ok = file:write_file(filename:join(Here, "per.txt"), [[L, $\n] || L <- Lines]),
        io:format("~b lines; ~b of more than 160 columns left out~n",
                  [length(Lines), length([L || L <- Made, length(L) > 160])])
    after
        file:del_dir_r(Temp)
    end.

compile(Source, Temp) ->
    ok = asn1ct:compile(Source, [uper, maps, {outdir, Temp}]),
    {module, 'DateTime'} = code:load_abs(filename:join(Temp, "DateTime")).

first_of_equals(Lines) ->
    {Kept, _} = lists:foldl(fun(L, {Acc, Seen}) ->
                                    case maps:is_key(L, Seen) of
                                        true -> {Acc, Seen};
                                        false -> {[L | Acc], Seen#{L => true}}
                                    end
                            end, {[], #{}}, Lines),
    lists:reverse(Kept).

%% The lines of one vector: under its settings list, and under its name where it has one.

lines({duration, Components, Fraction}) ->
    true = duration_exists(Components, Fraction),
    Hex = encode('Row-37', duration_value(Components, Fraction)),
    [lists:flatten([Type, $;, duration_text(Components, Fraction), $;, Hex]) || Type <- duration_types()];
lines({Date, Time}) ->
    true = date_exists(Date) andalso time_exists(Time),
    Hex = encode(row(Date, Time), value(Date, Time)),
    [lists:flatten([Type, $;, text(Date, Time), $;, Hex]) || Type <- types(Date, Time)].

encode(Row, Value) ->
    {ok, Octets} = 'DateTime':encode(Row, Value),
    {ok, Value} = 'DateTime':decode(Row, Octets),
    binary_to_list(binary:encode_hex(Octets)).

%% What exists. The calendar repeats every 400 years, so Erlang's own calendar answers for all years.

date_exists(none) -> true;
date_exists({Family, Form, Y, A, B}) ->
    C = like(Y),
    lists:member(setting(Y), settings(Family)) andalso
        case Form of
            y -> {A, B} =:= {none, none};
            ym -> in(A, 1, 12) andalso B =:= none;
            ymd -> calendar:valid_date(C, A, B);
            yd -> in(A, 1, days(Y)) andalso B =:= none;
            yw -> in(A, 1, weeks(Y)) andalso B =:= none;
            ywd -> in(A, 1, weeks(Y)) andalso in(B, 1, 7)
        end.

time_exists(none) -> true;
time_exists({Form, N, H, M, S, F, Zone}) ->
    in(H, 0, 24) andalso in(M, 0, 59) andalso in(S, 0, 60)
        andalso (Form =:= hms orelse S =:= 0) andalso (Form =/= h orelse M =:= 0)
        andalso in(N, 0, 9) andalso in(F, 0, highest(N))
        andalso (H < 24 orelse {M, S, F} =:= {0, 0, 0})
        andalso case Zone of
                    l -> true;
                    z -> true;
                    {Sign, DH, DM} -> in(DH, 0, 15) andalso in(DM, 0, 59) andalso (Sign =:= $+ orelse DH > 0)
                end
        andalso (S < 60 orelse Zone =:= l orelse utc(H, M, Zone) =:= {23, 59, 0}).

%% The time that UTC has at a local one, on the same day or on one beside it: Erlang's own calendar takes the difference
%% from the local time. By #102 second 60 with Z or with a difference is at 23:59 UTC alone.
utc(H, M, z) -> {H, M, 0};
utc(H, M, {Sign, DH, DM}) ->
    Local = calendar:datetime_to_gregorian_seconds({{2006, 6, 13}, {H, M, 0}}),
    {_, UTC} = calendar:gregorian_seconds_to_datetime(Local - signed(Sign, 3600 * DH + 60 * DM)),
    UTC.

%% A duration as X.690 11.9 d has it: of all components only the last one may be 0. Weeks stand alone.
duration_exists(Components, Fraction) ->
    {Names, Numbers} = lists:unzip(Components),
    Names =/= [] andalso Names =:= [Name || Name <- components(), lists:member(Name, Names)]
        andalso (Names =:= [weeks] orelse not lists:member(weeks, Names))
        andalso lists:all(fun(X) -> in(X, 0, highest(9)) end, Numbers)
        andalso not lists:member(0, lists:droplast(Numbers))
        andalso case Fraction of
                    none -> true;
                    {N, F} -> in(N, 1, 9) andalso in(F, 0, highest(N))
                end.

in(X, Low, High) -> is_integer(X) andalso Low =< X andalso X =< High.
like(Y) -> 2000 + ((Y rem 400) + 400) rem 400.
days(Y) -> case calendar:is_leap_year(like(Y)) of true -> 366; false -> 365 end.
weeks(Y) -> {_, W} = calendar:iso_week_number({like(Y), 12, 28}), W.
last_day(Y, M) -> calendar:last_day_of_the_month(like(Y), M).
power(N) -> list_to_integer("1" ++ lists:duplicate(N, $0)).
highest(N) -> power(N) - 1.

setting(Y) when Y >= 10000; Y =< -10000 -> lists:concat(["L", length(integer_to_list(abs(Y)))]);
setting(Y) when Y < 0 -> "Negative";
setting(Y) when Y < 1582 -> "Proleptic";
setting(_) -> "Basic".

settings(basic) -> ["Basic", "Proleptic"];
settings(any) -> ["Negative", "L5", "L6", "L7", "L8", "L9"].

%% The row of Table 2, the name of a type of DateTime.asn1.

row(Date, none) -> list_to_atom(lists:concat(["Row-", date_row(Date)]));
row(none, Time) -> list_to_atom(lists:concat(["Row-", time_row(Time)]));
row(Date, Time) -> list_to_atom(lists:concat(["Row-33-", date_row(Date), "-", time_row(Time)])).

date_row({Family, Form, _, _, _}) ->
    place(Form, [y, ym, ymd, yd, yw, ywd]) * 2 + place(Family, [basic, any]) + 3.

time_row({Form, N, _, _, _, _, Zone}) ->
    place(Form, [h, hm, hms]) * 3 + place(zone_setting(Zone), ["L", "Z", "LD"])
        + case N of 0 -> 15; _ -> 24 end.

place(X, [X | _]) -> 0;
place(X, [_ | Rest]) -> 1 + place(X, Rest).

zone_setting(l) -> "L";
zone_setting(z) -> "Z";
zone_setting({_, _, _}) -> "LD".

%% The value for the encoder.

value(Date, none) -> date_value(Date);
value(none, Time) -> time_value(Time);
value(Date, Time) -> #{date => date_value(Date), time => time_value(Time)}.

date_value({Family, Form, Y, A, B}) ->
    Year = year_value(Family, Y),
    case Form of
        y -> Year;
        ym -> #{year => Year, month => A};
        ymd -> #{year => Year, month => A, day => B};
        yd -> #{year => Year, day => A};
        yw -> #{year => Year, week => A};
        ywd -> #{year => Year, week => A, day => B}
    end.

year_value(any, Y) -> Y;
year_value(basic, Y) when 2005 =< Y, Y =< 2020 -> {immediate, Y};
year_value(basic, Y) when 2021 =< Y, Y =< 2276 -> {'near-future', Y};
year_value(basic, Y) when 1749 =< Y, Y =< 2004 -> {'near-past', Y};
year_value(basic, Y) -> {remainder, Y}.

time_value({h, 0, H, _, _, _, {_, _, _} = Zone}) ->
    #{'local-hours' => H, 'time-difference' => difference(Zone)};
time_value({h, _, H, _, _, F, {_, _, _} = Zone}) ->
    #{'local-hours' => H, fraction => F, 'time-difference' => difference(Zone)};
time_value({_, _, _, _, _, _, {_, _, _} = Zone} = Time) ->
    #{'local-time' => local(Time), 'time-difference' => difference(Zone)};
time_value(Time) ->
    local(Time).

local({h, 0, H, _, _, _, _}) -> H;
local({hm, 0, H, M, _, _, _}) -> #{hours => H, minutes => M};
local({hms, 0, H, M, S, _, _}) -> #{hours => H, minutes => M, seconds => S};
local({h, _, H, _, _, F, _}) -> #{hours => H, fraction => F};
local({hm, _, H, M, _, F, _}) -> #{hours => H, minutes => M, fraction => F};
local({hms, _, H, M, S, F, _}) -> #{hours => H, minutes => M, seconds => S, fraction => F}.

difference({Sign, H, 0}) -> #{hours => signed(Sign, H)};
difference({Sign, H, M}) -> #{hours => signed(Sign, H), minutes => M}.

signed($+, X) -> X;
signed($-, X) -> -X.

duration_value(Components, none) -> maps:from_list(Components);
duration_value(Components, {N, F}) ->
    maps:from_list([{'fractional-part', #{'number-of-digits' => N, 'fractional-value' => F}} | Components]).

%% The type's text.

types(Date, Time) ->
    [settings_list(Date, Time) | name(date_settings(Date), time_settings(Time))].

settings_list(Date, none) -> ["Basic=Date", date_settings(Date)];
settings_list(none, Time) -> ["Basic=Time", time_settings(Time)];
settings_list(Date, Time) -> ["Basic=Date-Time", date_settings(Date), time_settings(Time)].

name(" Date=YMD Year=Basic", none) -> ["DATE"];
name(none, " Time=HMS Local-or-UTC=L") -> ["TIME-OF-DAY"];
name(" Date=YMD Year=Basic", " Time=HMS Local-or-UTC=L") -> ["DATE-TIME"];
name(_, _) -> [].

duration_types() -> ["Basic=Interval Interval-type=D", "DURATION"].

date_settings(none) -> none;
date_settings({_, Form, Y, _, _}) ->
    lists:concat([" Date=", string:uppercase(atom_to_list(Form)), " Year=", setting(Y)]).

time_settings(none) -> none;
time_settings({Form, N, _, _, _, _, Zone}) ->
    Digits = case N of 0 -> ""; _ -> [$F, $0 + N] end,
    lists:concat([" Time=", string:uppercase(atom_to_list(Form)), Digits, " Local-or-UTC=", zone_setting(Zone)]).

%% The canonical text.

text(Date, none) -> date_text(Date);
text(none, Time) -> time_text(Time);
text(Date, Time) -> [date_text(Date), $T, time_text(Time)].

date_text({_, y, Y, _, _}) -> year_text(Y);
date_text({_, ym, Y, A, _}) -> [year_text(Y), $-, digits(2, A)];
date_text({_, ymd, Y, A, B}) -> [year_text(Y), $-, digits(2, A), $-, digits(2, B)];
date_text({_, yd, Y, A, _}) -> [year_text(Y), $-, digits(3, A)];
date_text({_, yw, Y, A, _}) -> [year_text(Y), "-W", digits(2, A)];
date_text({_, ywd, Y, A, B}) -> [year_text(Y), "-W", digits(2, A), $-, digits(1, B)].

year_text(Y) when Y >= 10000 -> [$+, integer_to_list(Y)];
year_text(Y) when Y =< -10000 -> [$-, integer_to_list(-Y)];
year_text(Y) when Y < 0 -> [$-, digits(4, -Y)];
year_text(Y) -> digits(4, Y).

time_text({Form, N, H, M, S, F, Zone}) ->
    Fields = case Form of
                 h -> digits(2, H);
                 hm -> [digits(2, H), $:, digits(2, M)];
                 hms -> [digits(2, H), $:, digits(2, M), $:, digits(2, S)]
             end,
    Fraction = case N of 0 -> ""; _ -> [$., digits(N, F)] end,
    [Fields, Fraction, zone_text(Zone)].

zone_text(l) -> "";
zone_text(z) -> "Z";
zone_text({Sign, H, 0}) -> [Sign, digits(2, H)];
zone_text({Sign, H, M}) -> [Sign, digits(2, H), $:, digits(2, M)].

duration_text(Components, Fraction) ->
    {Dates, Times} = lists:partition(fun({Name, _}) -> place(Name, components()) < 4 end, Components),
    Last = lists:last(Components),
    Part = fun(C) when C =:= Last -> designation(C, Fraction);
              (C) -> designation(C, none)
           end,
    [$P, lists:map(Part, Dates), [$T || Times =/= []], lists:map(Part, Times)].

designation({Name, X}, none) -> [integer_to_list(X), designator(Name)];
designation({Name, X}, {N, F}) -> [integer_to_list(X), $., digits(N, F), designator(Name)].

designator(Name) -> lists:nth(place(Name, components()) + 1, "YMWDHMS").

digits(Width, X) -> io_lib:format("~*..0b", [Width, X]).

%% The vectors, {Date, Time} with none for what is lacking, and the durations.

vectors() ->
    [{D, none} || D <- dates()] ++ [{none, T} || T <- times()] ++ date_times() ++ durations().

families() -> [basic, any].
forms() -> [y, ym, ymd, yd, yw, ywd].

years(basic) ->
    [2005, 2020, 2021, 2276, 1749, 2004,
     0, 1, 127, 128, 255, 256, 400, 1500, 1580, 1581, 1582, 1600, 1748, 2277, 2400, 9996, 9999,
     2006, 2008, 2015, 2024, 2026, 2100, 2272, 1752, 1800, 1900, 1970, 2000];
years(any) ->
    [-1, -4, -8, -100, -127, -128, -129, -255, -256, -257, -400, -9996, -9999,
     -10000, -20000, -32767, -32768, -32769, -65536, -65537, -99996, -99999,
     10000, 10004, 12345, 32767, 32768, 65535, 65536, 99996, 99999].

%% Years of six to nine digits: the ends of each length of digits and of octets, and years that are leap or have 53 weeks.
large_years() ->
    [100000, -100000, 123456, 999999, -999999,
     1000000, -1000000, 8388607, 8388608, -8388608, -8388609, 9999999, -9999999,
     10000000, -10000000, 10000020, 16777215, 16777216, -16777216, -16777217, 99999999, -99999999,
     100000000, -100000000, 123456789, -123456789, 999999620, -999999600, -999999980, 999999999, -999999999].

dates() ->
    [{Family, Form, Y, A, B} || Family <- families(), Form <- forms(), Y <- years(Family), {A, B} <- rest(Form, Y)]
        ++ [{basic, ymd, 2006, M, last_day(2006, M)} || M <- lists:seq(1, 12)]
        ++ [{basic, ymd, 2006, 6, 13}]
        ++ [{any, ym, -1, M, none} || M <- lists:seq(1, 12)]
        ++ [{basic, ywd, 2020, W, W rem 7 + 1} || W <- lists:seq(1, 53)]
        ++ [{basic, yd, 2008, D, none} || D <- [2, 31, 60, 127, 128, 129, 256, 257]]
        ++ [{any, Form, Y, A, B} || Form <- forms(), Y <- large_years(), {A, B} <- rest(Form, Y)].

%% Lowest and highest of each field that follows the year, and the ends of February.
rest(y, _) -> [{none, none}];
rest(ym, _) -> [{1, none}, {12, none}];
rest(ymd, Y) -> [{1, 1}, {1, 31}, {2, last_day(Y, 2)}, {12, 1}, {12, 31}];
rest(yd, Y) -> [{1, none}, {days(Y), none}];
rest(yw, Y) -> [{1, none}, {weeks(Y), none}];
rest(ywd, Y) -> [{1, 1}, {1, 7}, {weeks(Y), 1}, {weeks(Y), 7}].

zones() -> [l, z | differences()].

differences() ->
    [{$-, 15, 59}, {$-, 15, 0}, {$-, 1, 0}, {$-, 1, 1}, {$-, 1, 30}, {$-, 1, 59}, {$+, 0, 0}, {$+, 0, 1}, {$+, 0, 59},
     {$+, 1, 0}, {$+, 5, 30}, {$+, 15, 0}, {$+, 15, 59}].

whole_hours() -> [{Sign, H, 0} || {Sign, Low} <- [{$-, 1}, {$+, 0}], H <- lists:seq(Low, 15)].

times() ->
    [{Form, 0, H, M, S, 0, Zone} || Form <- [h, hm, hms], Zone <- zones(), {H, M, S} <- clocks(Form, Zone)]
        ++ [{h, 0, H, 0, 0, 0, l} || H <- lists:seq(0, 24)]
        ++ [{hm, 0, 12, M, 0, 0, l} || M <- [1, 15, 16, 31, 32, 33, 47, 48]]
        ++ [{hms, 0, 12, 0, S, 0, l} || S <- [1, 15, 16, 31, 32, 33, 47, 48]]
        ++ [{hms, 0, 12, 34, 60, 0, l}]
        ++ [{hms, 0, 12, 34, 56, 0, Zone} || Zone <- whole_hours()]
        ++ [{hms, 0, H, M, S, 0, Zone} || Zone <- whole_hours(), {H, M, S} <- [second_60(Zone)]]
        ++ [{Form, N, H, M, S, F, Zone} || Form <- [h, hm, hms], N <- [1, 3, 4, 9],
                                           F <- [0, 999, 1000, highest(N)], F =< highest(N),
                                           Zone <- [l, z, {$-, 15, 59}, {$-, 1, 0}, {$-, 1, 30},
                                                    {$+, 0, 0}, {$+, 0, 1}, {$+, 15, 59}],
                                           {H, M, S} <- clocks_with_fraction(Form, F, Zone)]
        ++ [{hms, N, 15, 27, 46, F, Zone} || N <- lists:seq(1, 9), F <- fractions(N), Zone <- [l, z, {$-, 1, 30}]]
        ++ [{Form, N, 24, 0, 0, 0, Zone} || Form <- [h, hm, hms], N <- lists:seq(1, 9), Zone <- [l, z, {$+, 0, 0}]].

clocks(h, _) -> [{0, 0, 0}, {15, 0, 0}, {23, 0, 0}, {24, 0, 0}];
clocks(hm, _) -> [{0, 0, 0}, {0, 59, 0}, {15, 27, 0}, {23, 0, 0}, {23, 59, 0}, {24, 0, 0}];
clocks(hms, Zone) ->
    [{0, 0, 0}, {0, 0, case Zone of l -> 60; _ -> 59 end}, {0, 59, 0}, {15, 27, 46}, {23, 0, 0}, {23, 59, 59},
     second_60(Zone), {24, 0, 0}].

clocks_with_fraction(Form, F, Zone) ->
    [{0, 0, 0}, highest_clock(Form, Zone)] ++ [{24, 0, 0} || F =:= 0].

highest_clock(h, _) -> {23, 0, 0};
highest_clock(hm, _) -> {23, 59, 0};
highest_clock(hms, Zone) -> second_60(Zone).

%% Second 60 of the local minute in which UTC has 23:59.
second_60({Sign, DH, DM}) ->
    Local = (23 * 60 + 59 + signed(Sign, DH * 60 + DM) + 24 * 60) rem (24 * 60),
    {Local div 60, Local rem 60, 60};
second_60(_) -> {23, 59, 60}.

%% The ends of the short fraction, of each length of the long one, and of the digits.
fractions(N) ->
    [F || F <- [0, 1, 9, 500, 512, 999, 1000, 1023, 1024, 32767, 32768, 8388607, 8388608], F =< highest(N)]
        ++ [highest(N)].

%% Every row of dates with every row of times; the digits of the fraction go round from 1 to 9.
%% Then one of the longest of the base, 14 octets, and the highest date and time of each year.
%% Then the same with years of six to nine digits, one date and time for each pair of rows.
date_times() ->
    [{{basic, ymd, 2006, 6, 13}, {hms, 0, H, M, S, 0, l}} || {H, M, S} <- [{15, 27, 46}, {12, 34, 60}]]
        ++ lists:append([date_times(K, Family, Form, Clock, Fraction, Zone)
                         || {K, {Family, Form, Clock, Fraction, Zone}} <- numbered(combinations())])
        ++ [{{any, yd, -99999, days(-99999), none}, {hms, 9, 8, 59, 60, 999999999, {$-, 15, 0}}}]
        ++ [{{Family, ymd, Y, 12, 31}, {hms, 0, 23, 59, 60, 0, l}} || Family <- families(), Y <- years(Family)]
        ++ [large_date_time(K, Form, Clock, Fraction, Zone)
            || {K, {any, Form, Clock, Fraction, Zone}} <- numbered(combinations())]
        ++ [{{any, ymd, Y, 12, 31}, {hms, 0, 23, 59, 60, 0, l}} || Y <- large_years()]
        ++ [{{any, ywd, -999999980, 53, 7}, {hms, 9, 15, 58, 60, 999999999, {$+, 15, 59}}}].

combinations() ->
    [{Family, Form, Clock, Fraction, Zone} || Family <- families(), Form <- forms(), Fraction <- [false, true],
                                              Clock <- [h, hm, hms], Zone <- ["L", "Z", "LD"]].

numbered(List) -> lists:zip(lists:seq(0, length(List) - 1), List).

date_times(K, Family, Form, Clock, Fraction, Zone) ->
    N = case Fraction of true -> (K + K div 18) rem 9 + 1; false -> 0 end,
    Dates = [{Family, Form, Y, A, B} || J <- [0, 1, 2, 3], Y <- [nth(K * 4 + J, years(Family))],
                                        {A, B} <- [nth(J, ends(rest(Form, Y)))]],
    [Z0, Z1, Z2, Z3] = [zone(Zone, K * 4 + J) || J <- [0, 1, 2, 3]],
    Times = [{Clock, N, H, M, S, F, Z}
             || {{H, M, S}, F, Z} <- [{{24, 0, 0}, 0, Z0}, {highest_clock(Clock, Z1), highest(N), Z1},
                                      {{0, 0, 0}, highest(N) div 2, Z2}, {highest_clock(Clock, Z3), 0, Z3}]],
    lists:zip(Dates, Times).

large_date_time(K, Form, Clock, Fraction, Zone) ->
    N = case Fraction of true -> (K + K div 18) rem 9 + 1; false -> 0 end,
    Y = nth(K, large_years()),
    {A, B} = lists:last(rest(Form, Y)),
    Z = zone(Zone, K),
    {H, M, S} = highest_clock(Clock, Z),
    {{any, Form, Y, A, B}, {Clock, N, H, M, S, highest(N), Z}}.

ends(List) -> [hd(List), lists:last(List)].
nth(I, List) -> lists:nth(I rem length(List) + 1, List).

zone("L", _) -> l;
zone("Z", _) -> z;
zone("LD", I) -> nth(I, differences()).

%% The components in the order of 28 bis.6.1, and the highest number of each one's root.

components() -> [years, months, weeks, days, hours, minutes, seconds].

root(Name) -> lists:nth(place(Name, components()) + 1, [31, 15, 63, 31, 31, 63, 63]).

%% Each component alone with numbers at the ends of its root and of each length of a free integer, and with a fraction;
%% fractions at their ends; components together; and numbers and fractions of nine digits.
durations() ->
    [{duration, [{Name, X}], none} || Name <- components(),
                                      X <- [0, 1, root(Name), root(Name) + 1, 127, 128, highest(9)]]
        ++ [{duration, [{seconds, X}], none} || X <- [255, 256, 32767, 32768, 8388607, 8388608]]
        ++ [{duration, [{Name, X}], Fraction} || Name <- components(),
                                                 {X, Fraction} <- [{0, {1, 5}}, {7, {3, 999}}, {128, {4, 1000}}]]
        ++ [{duration, [{seconds, 0}], {N, F}} || N <- [1, 3, 4, 9], F <- duration_fractions(N)]
        ++ [{duration, [{hours, 1}], {N, 10}} || N <- [2, 5, 6, 7, 8]]
        ++ [together(K) || K <- lists:seq(1, 63)]
        ++ [{duration, [{years, 1}, {months, 6}], none},
            {duration, [{years, 1}, {months, 0}], none},
            {duration, [{months, 29}, {minutes, 0}], {2, 0}},
            {duration, [{years, highest(9)}, {seconds, highest(9)}], {9, highest(9)}},
            {duration, [{months, highest(9)}, {days, highest(9)}, {hours, 0}], {9, 0}},
            {duration, [{weeks, highest(9)}], {9, 1}}].

duration_fractions(N) ->
    [F || F <- [0, 1, 512, 999, 1000, 32767, 32768, 8388607, 8388608], F < highest(N)] ++ [highest(N)].

%% The components of the K-th choice of six, weeks left out; of three choices one ends in 0 and one has a fraction.
together(K) ->
    All = [{years, 2}, {months, 10}, {days, 15}, {hours, 10}, {minutes, 20}, {seconds, 30}],
    Chosen = [C || {I, C} <- numbered(All), K band (1 bsl I) =/= 0],
    {Name, _} = lists:last(Chosen),
    case K rem 3 of
        0 -> {duration, lists:droplast(Chosen) ++ [{Name, 0}], none};
        1 -> {duration, Chosen, none};
        2 -> {duration, Chosen, {2, K}}
    end.

%% The project's own examples of unaligned PER. Each must be among the lines, else nothing is written.
checked() ->
    ["DATE;2006-06-13;0558",
     "DATE;2004-02-29;BFC780",
     "DATE;2021-01-01;400000",
     "DATE;2276-12-31;7FEFC0",
     "DATE;1748-12-31;C081B52FC0",
     "TIME-OF-DAY;24:00:00;C00000",
     "TIME-OF-DAY;23:59:60;BF7E00",
     "DATE-TIME;2006-06-13T15:27:46;0558F6EE",
     "Basic=Time Time=HMSF3 Local-or-UTC=L;15:27:46.500;7B771F40",
     "Basic=Date Date=YW Year=Basic;2020-W53;3F40",
     "Basic=Date Date=Y Year=Proleptic;0000;C04000",
     "Basic=Date Date=Y Year=Negative;-0128;0180",
     "Basic=Date Date=Y Year=Negative;-0129;02FF7F",
     "Basic=Date Date=Y Year=L5;+32767;027FFF",
     "Basic=Date Date=Y Year=L5;+32768;03008000",
     "Basic=Date Date=Y Year=L9;+999999999;043B9AC9FF",
     "Basic=Date Date=Y Year=L9;-999999999;04C4653601",
     "DURATION;P1Y6M;C004C0",
     "DURATION;PT0.5S;03000020",
     "DURATION;P1D;1004",
     "DURATION;P0M;4000",
     "DURATION;P1Y0M;C00400"].
