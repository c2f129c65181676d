% Times one question inside Prolog: swipl time.pl FILE, where FILE has the theory of a sheet and question(Test, Situation).
% Prints microseconds a call and the verdict, with a tab between; `over` for the time where one call takes more than the limit.
% CPU time, many calls, after the file is loaded: neither the start of the process nor the reading of the rule counts.

:- initialization(main, main).
:- prolog_load_context(directory, Here), atom_concat(Here, '/elgolog', File), consult(File).
:- use_module(library(time)).

limit(20).      % seconds that one call may take
enough(0.5).    % seconds of calls that make a time

verdict(Test,S,yes) :- holds(Test,S,S), !.
verdict(_,_,no).

% Seconds that so many calls take.
calls(N,Test,S,Seconds) :-
    statistics(cputime,From),
    ( between(1,N,_), verdict(Test,S,_), fail ; true ),
    statistics(cputime,To),
    Seconds is To - From.

% More calls until they take long enough.
timed(N,Test,S,Each) :-
    calls(N,Test,S,Seconds),
    enough(Enough),
    ( Seconds >= Enough -> Each is Seconds * 1000000 / N
    ; More is N * 4, timed(More,Test,S,Each) ).

% The least of three.
least(Test,S,Each) :-
    findall(T, (between(1,3,_), timed(1,Test,S,T)), Times),
    min_list(Times,Each).

main :-
    current_prolog_flag(argv,[File|_]),
    consult(File),
    question(Test,S),
    limit(Limit),
    catch(( call_with_time_limit(Limit,verdict(Test,S,V)), least(Test,S,Each) ),
          time_limit_exceeded, ( V = unknown, Each = over )),
    format('~w\t~w~n',[Each,V]).
