% What bench/ask_time.sh needs of SWI-Prolog: a table to time, and the same goals answered by Prolog itself.

% 64 facts with 8 arguments and 32 symbols each, which is the most that a table has.
full(File) :-
    set_random(seed(1995)),
    open(File, write, Out),
    forall(between(1, 64, Row), (length(Arguments, 8), maplist(argument(Row), Arguments), Fact =.. [full|Arguments], format(Out, "~q.~n", [Fact]))),
    close(Out).

argument(Row, f(Row, Name, Other)) :- random_between(1, 8, 1), !, random_member(Name, [a, b, c]), random_member(Other, [d, e]).
argument(_, f(Number, Name, Other)) :- random_between(1, 3, Number), random_member(Name, [a, b, c]), random_member(Other, [d, e]).

% Goals from standard input, each with a full stop: their answers, one to a line, and how many there are.
answer(Facts) :-
    consult(Facts),
    repeat,
    read(Goal),
    ( Goal == end_of_file -> ! ; answers(Goal), fail ).

answers(Goal) :-
    findall(Goal, Goal, Answers),
    forall(member(Answer, Answers), (print(Answer), nl)),
    length(Answers, Count),
    format("~d~n", [Count]).
