% Goals for texts of facts, and whether `ask` answered them as SWI-Prolog does. For each `NAME.` in the file `list`, `make(Seed)` reads NAME.pl
% and writes NAME.goals, one goal to a line; `check` reads NAME.answers, what `ask` printed for them.

:- dynamic differ/1, asked/2, row/1.

% ---- goals

make(Seed) :-
    set_random(seed(Seed)),
    names(Names),
    forall(member(Name, Names), goals(Name)).

goals(Name) :- goals(Name, 8).

% so many of them, kind after kind
goals(Name, Count) :-
    facts(Name, Facts),
    file(Name, '.goals', File),
    open(File, write, Out, [encoding(iso_latin_1)]),
    forall(between(1, Count, Number), (Kind is (Number - 1) mod 8 + 1, goal(Kind, Facts, Goal), put_goal(Goal, Out))),
    close(Out).

% The first of distinct variables; others like one rule or several, some of their terms replaced by variables, which may be repeated; the last
% without variables, with numbers and names that the table may not have. A goal has at most 32 symbols.
goal(1, Facts, Goal) :- !,
    Facts = [fact(_, Fact)|_],
    functor(Fact, Name, Width),
    functor(Goal, Name, Width).
goal(Kind, Facts, Goal) :-
    Facts = [fact(_, Fact)|_],
    functor(Fact, Name, Width),
    random_member(fact(_, Like), Facts),
    length(Arguments, Width),
    arguments(Arguments, 1, Kind, Like, Facts, [_, _, _]),
    Made =.. [Name|Arguments],
    ( Kind >= 7 -> term_variables(Made, Variables), maplist(ground_term, Variables) ; true ),
    symbols(Made, Size),
    ( Size =< 33, \+ long_answer(Made, Facts) -> Goal = Made ; goal(1, Facts, Goal) ).

% An answer of over 1,024 symbols besides the predicate's name is BIG, and no answer is printed: such a goal is not asked here.
long_answer(Goal, Facts) :-
    member(fact(_, Fact), Facts),
    copy_term(Fact, Copy),
    unify_with_occurs_check(Goal, Copy),
    symbols(Goal, Size),
    Size > 1025,
    !.

arguments([], _, _, _, _, _).
arguments([Argument|Arguments], Number, Kind, Like, Facts, Pool) :-
    ( Kind mod 2 =:= 0 -> random_member(fact(_, From), Facts) ; From = Like ),
    arg(Number, From, Found),
    copy_term(Found, Copy),
    varied(Copy, Pool, Argument),
    Next is Number + 1,
    arguments(Arguments, Next, Kind, Like, Facts, Pool).

% A term with some of its subterms replaced by variables of a pool, or by new ones.
varied(_, Pool, Variable) :- random_between(1, 4, 1), !, random_member(Variable, Pool).
varied(Term, _, Term) :- \+ compound(Term), !.
varied(Term, Pool, Varied) :-
    Term =.. [Name|Arguments],
    varied_all(Arguments, Pool, Others),
    Varied =.. [Name|Others].

varied_all([], _, []).
varied_all([Term|Terms], Pool, [Varied|Others]) :- varied(Term, Pool, Varied), varied_all(Terms, Pool, Others).

ground_term(Term) :- random_between(1, 6, Kind), ground_term(Kind, Term).

ground_term(1, Number) :- random_between(-32768, 32767, Number).
ground_term(2, Number) :- random_between(-2, 2, Number).
ground_term(3, f(a, Number)) :- random_between(-9, 9, Number).
ground_term(4, quite_new(quite_new, quite_newer)).
ground_term(5, quite_new).
ground_term(6, red).

symbols(Term, 1) :- \+ compound(Term), !.
symbols(Term, Size) :- Term =.. [_|Terms], maplist(symbols, Terms, Sizes), sum_list(Sizes, Inside), Size is Inside + 1.

% Written as people write it: names plain, and now and then the full stop.
put_goal(Goal, Out) :-
    \+ \+ (numbervars(Goal, 0, _), put_term(Goal, Out)),
    ( random_between(1, 3, 1) -> put_char(Out, '.') ; true ),
    nl(Out).

put_term('$VAR'(Number), Out) :- !, format(Out, 'V~d', [Number]).
put_term(Number, Out) :- number(Number), !, write(Out, Number).
put_term(Name, Out) :- atom(Name), !, put_name(Name, Out).
put_term(Term, Out) :-
    Term =.. [Name, First|Terms],
    put_name(Name, Out),
    put_char(Out, '('),
    put_term(First, Out),
    forall(member(Other, Terms), (write(Out, ', '), put_term(Other, Out))),
    put_char(Out, ')').

put_name(Name, Out) :- atom_chars(Name, Characters), forall(member(Character, Characters), put_char(Out, Character)).

% ---- answers

check :-
    set_prolog_flag(occurs_check, true),
    names(Names),
    forall(member(Name, Names), checked(Name)),
    forall(clause(kind(Kind, _, _), _), (met(Kind, Count), format("~w: ~d~n", [Kind, Count]))),
    aggregate_all(count, asked(_, _), Goals),
    aggregate_all(count, differ(_), Differ),
    format("~d goals, ~d differ~n", [Goals, Differ]),
    ( Differ =:= 0 -> true ; halt(1) ).

% What occurs in the goals.
met(Kind, Count) :- aggregate_all(count, (asked(Goal, Facts), once(kind(Kind, Goal, Facts))), Count).

kind('with answers', Goal, Facts) :- member(fact(_, Fact), Facts), unifies(Goal, Fact).
kind('with a repeated variable', Goal, _) :- repeats(Goal).
kind('for rules that repeat a variable', _, Facts) :- member(fact(_, Fact), Facts), repeats(Fact).
kind('that a repeated variable of a rule keeps from an answer', Goal, Facts) :-
    member(fact(_, Fact), Facts), repeats(Fact), \+ unifies(Goal, Fact), told_apart(Fact, Apart), unifies(Goal, Apart).
kind('with a name that the table has not', Goal, Facts) :- within(Part, Goal), callable(Part), functor(Part, Name, _), \+ named(Name, Facts).
kind('with a name inside a name', Goal, _) :- arg(_, Goal, Argument), compound(Argument), arg(_, Argument, Part), nonvar(Part).
kind('with a number below zero', Goal, _) :- within(Part, Goal), number(Part), Part < 0.

repeats(Term) :- occurrences(Term, Variables), term_variables(Term, Distinct), \+ same_length(Variables, Distinct).

unifies(Goal, Fact) :- \+ \+ (copy_term(Fact, Copy), unify_with_occurs_check(Goal, Copy)).

% The term with every variable another one.
told_apart(Term, _) :- var(Term), !.
told_apart(Term, Apart) :- Term =.. [Name|Terms], maplist(told_apart, Terms, Others), Apart =.. [Name|Others].

within(Term, Term) :- nonvar(Term).
within(Part, Term) :- compound(Term), arg(_, Term, Argument), within(Part, Argument).

named(Name, Facts) :- member(fact(_, Fact), Facts), within(Part, Fact), callable(Part), functor(Part, Name, _).

occurrences(Term, [Term]) :- var(Term), !.
occurrences(Term, Variables) :- compound(Term), !, Term =.. [_|Terms], maplist(occurrences, Terms, Lists), append(Lists, Variables).
occurrences(_, []).

checked(Name) :-
    facts(Name, Facts),
    file(Name, '.goals', File),
    lines(File, Goals),
    file(Name, '.answers', Answers),
    lines(Answers, Lines),
    compared(Goals, Name, Facts, Lines).

compared([], Name, _, Rest) :- ( Rest == [] -> true ; note(Name, 'more than the answers') ).
compared([Line|Lines], Name, Facts, Answers) :-
    term_string(Goal, Line),
    assertz(asked(Goal, Facts)),
    expected(Goal, Facts, Expected),
    length(Expected, Count),
    ( Answers = [Head|After] -> true ; Head = "", After = [] ),
    ( append(Said, [Last|Rest], After), \+ sub_string(Last, 0, _, _, "rule ") -> true ; Said = After, Last = "", Rest = [] ),
    ( head(Line, Head), maplist(says, Said, Expected), counts(Count, Start), sub_string(Last, 0, _, _, Start) -> true
    ; note(Name, Line)
    ),
    compared(Lines, Name, Facts, Rest).

% The line before the answers, with the goal without its full stop; and the start of the one after them.
head(Line, Head) :- ( string_concat(Goal, ".", Line) -> true ; Goal = Line ), string_concat("?- ", Goal, Head).

counts(1, "1 rule fits, ") :- !.
counts(Count, Start) :- format(string(Start), "~d rules fit, ", [Count]).

note(Name, What) :-
    assertz(differ(What)),
    aggregate_all(count, differ(_), Count),
    ( Count =< 5 -> format("~w: ~w~n", [Name, What]) ; true ).

% The answers by unification with each rule in turn, with its number and line; and Prolog's own search over the rules gives the same.
expected(Goal, Facts, Expected) :-
    findall(said(Number, Line, Goal),
            ( nth1(Number, Facts, fact(Line, Fact)), copy_term(Fact, Copy), unify_with_occurs_check(Goal, Copy) ),
            Expected),
    retractall(row(_)),
    forall(member(fact(_, Fact), Facts), assertz(row(Fact))),
    findall(said(_, _, Goal), row(Goal), Answers),
    ( maplist(same_answer, Expected, Answers) -> true ; throw(two_searches_differ(Goal)) ).

same_answer(said(_, _, One), said(_, _, Other)) :- One =@= Other.

says(Line, said(Number, At, Answer)) :-
    format(string(Start), "rule ~d, line ~d: ", [Number, At]),
    string_concat(Start, Text, Line),
    term_string(Said, Text),
    Said =@= Answer.

% ---- files

names(Names) :- lines(list, Lines), findall(Name, (member(Line, Lines), string_concat(Short, ".", Line), atom_string(Name, Short)), Names).

file(Name, Ending, File) :- atom_concat(Name, Ending, File).

lines(File, Lines) :-
    setup_call_cleanup(open(File, read, In, [encoding(iso_latin_1)]), all_lines(In, Lines), close(In)).

all_lines(In, Lines) :-
    read_line_to_string(In, Line),
    ( Line == end_of_file -> Lines = [] ; Lines = [Line|Rest], all_lines(In, Rest) ).

facts(Name, Facts) :-
    file(Name, '.pl', File),
    setup_call_cleanup(open(File, read, In, [encoding(iso_latin_1)]), all_facts(In, Facts), close(In)).

all_facts(In, Facts) :-
    read_term(In, Term, [term_position(Place)]),
    (   Term == end_of_file -> Facts = []
    ;   stream_position_data(line_count, Place, Line),
        Facts = [fact(Line, Term)|Rest],
        all_facts(In, Rest)
    ).
