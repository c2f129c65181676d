% The paper's interpreter, for rules of a job sheet.
%
% Lines marked PAPER are the clauses that the paper prints (De Giacomo, Lesperance, Ternovska: ElGolog, AAAI 2020, "Prolog Implementation"), in its order within
% each predicate. The paper says "clauses such as" and leaves out the others; those are marked ADDED, each with the sentence or definition it renders.
% The theory of the sheet (primitive_action/1, poss/2, the fluents, restoreSitArg/3) and the question are in a file written for each sheet.

:- op(800, xfy, &).
:- op(960, xfy, #).
:- discontiguous doLog/4, holds/3.

% do(Program, S, S1): an execution of the program. A verdict asks nothing of it; it is here so that the clauses are whole.
do(E,S,do(E,S)) :-                                        % PAPER
    primitive_action(E), poss(E,S).                       % PAPER
do(?(P),S,S) :- holds(P,S,S).                             % PAPER
do(E1 : E2,S,S1) :-                                       % PAPER  sequence
    do(E1,S,S2), do(E2,S2,S1).                            % PAPER
do(E1 # E2,S,S1) :-                                       % PAPER  choice
    do(E1,S,S1) ; do(E2,S,S1).                            % PAPER
do(star(E),S,S1) :-                                       % PAPER
    S1 = S ; do(E : star(E),S,S1).                        % PAPER

% holds(Test, Then, Now)
holds(P & Q,St,Sn) :-                                     % PAPER
    holds(P,St,Sn), holds(Q,St,Sn).                       % PAPER
holds(diamond(E,P),St,Sn) :-                              % PAPER
    doLog(E,St,S1,Sn), holds(P,S1,Sn).                    % PAPER
holds(-(P),St,Sn) :-                                      % ADDED  "Prolog negation-as-failure"; a sheet's tests have no variable,
    \+ holds(P,St,Sn).                                    % ADDED  so no Lloyd-Topor step is needed
holds(true,_,_).                                          % ADDED  True
holds(P,St,_) :-                                          % ADDED  "restoring the situation argument and invoking the result in Prolog"
    restoreSitArg(P,St,F), call(F).                       % ADDED

% doLog(Program, S, S1, Now): an execution that stays within the log.
doLog(E,S,do(E,S),Sn) :- primitive_action(E),             % PAPER
    leq(do(E,S),Sn), poss(E,S).                           % PAPER
doLog(conv(E),S,S1,Sn) :-                                 % PAPER
    primitive_action(E), doLog(E,S1,S,Sn).                % PAPER
doLog(?(P),S,S,Sn) :-                                     % PAPER
    leq(S,Sn), holds(P,S,S).                              % PAPER
doLog(E1 : E2,S,S1,Sn) :-                                 % PAPER
    doLog(E1,S,S2,Sn), doLog(E2,S2,S1,Sn).                % PAPER
doLog(E1 # E2,S,S1,Sn) :-                                 % ADDED  "mostly as in do"
    doLog(E1,S,S1,Sn) ; doLog(E2,S,S1,Sn).                % ADDED
doLog(star(E),S,S1,Sn) :-                                 % ADDED  "mostly as in do"
    S1 = S ; doLog(E : star(E),S,S1,Sn).                  % ADDED

% "This predicate first pushes the converse construct inwards": the definition of Do_log, line by line.
doLog(conv(E1 : E2),S,S1,Sn) :-                           % ADDED
    doLog(conv(E2) : conv(E1),S,S1,Sn).                   % ADDED
doLog(conv(E1 # E2),S,S1,Sn) :-                           % ADDED
    doLog(conv(E1) # conv(E2),S,S1,Sn).                   % ADDED
doLog(conv(star(E)),S,S1,Sn) :-                           % ADDED
    doLog(star(conv(E)),S,S1,Sn).                         % ADDED
doLog(conv(?(P)),S,S1,Sn) :-                              % ADDED
    doLog(?(P),S,S1,Sn).                                  % ADDED
doLog(conv(conv(E)),S,S1,Sn) :-                           % ADDED
    doLog(E,S,S1,Sn).                                     % ADDED

% `n` and `u` of a sheet are the paper's `any`, the choice over all actions, and its converse. The action is taken from the log and not tried one after another,
% which leads to the same situations and is to the interpreter's advantage.
doLog(any,S,do(A,S),Sn) :-                                % ADDED
    leq(do(A,S),Sn), primitive_action(A), poss(A,S).      % ADDED
doLog(conv(any),S,S1,Sn) :-                               % ADDED
    doLog(any,S1,S,Sn).                                   % ADDED

% leq(S1, S2): S1 is S2 or before it.
leq(S,S).                                                 % PAPER
leq(S,do(_A,S1)) :- leq(S,S1).                            % PAPER
