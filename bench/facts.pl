% Reads the files of a list and writes their terms symbol by symbol, as `texts` of the benchmark does: width, then each symbol before its
% arguments. NAME.pl is read, NAME.read written, for each `NAME.` in the list. Only what SWI-Prolog and GNU Prolog share is used.

accepted :- files(list).
refused :- files(refused).

files(List) :-
    open(List, read, Names),
    each(Names),
    close(Names).

each(Names) :-
    read_term(Names, Name, []),
    (   Name == end_of_file -> true
    ;   \+ \+ one(Name), each(Names)
    ).

one(Name) :-
    atom_concat(Name, '.pl', From),
    atom_concat(Name, '.read', To),
    open(From, read, In),
    open(To, write, Out),
    catch(terms(In, Out), Error, (write(Out, error(Error)), nl(Out))),
    close(In),
    close(Out).

terms(In, Out) :-
    read_term(In, Term, []),
    (   Term == end_of_file -> true
    ;   fact(Term, Out), terms(In, Out)
    ).

fact(Term, Out) :-
    functor(Term, _, Width),
    write(Out, Width), write(Out, ':'),
    arguments(1, Width, Term, 0, _, Out),
    nl(Out).

arguments(Number, Last, _, Count, Count, _) :- Number > Last, !.
arguments(Number, Last, Term, Before, After, Out) :-
    arg(Number, Term, Argument),
    symbols(Argument, Before, Between, Out),
    Next is Number + 1,
    arguments(Next, Last, Term, Between, After, Out).

% A variable is bound to its number in the fact when it is first met.
symbols(Term, Before, After, Out) :- var(Term), !,
    Term = '$VAR'(Before),
    After is Before + 1,
    write(Out, ' _'), write(Out, Before).
symbols('$VAR'(Number), Count, Count, Out) :- !,
    write(Out, ' _'), write(Out, Number).
symbols(Term, Count, Count, Out) :- number(Term), !,
    write(Out, ' '), write(Out, Term).
symbols(Term, Before, After, Out) :-
    functor(Term, Name, Arguments),
    atom_chars(Name, Characters),
    put_char(Out, ' '), characters(Characters, Out), put_char(Out, '/'), write(Out, Arguments),
    arguments(1, Arguments, Term, Before, After, Out).

characters([], _).
characters([Character|Characters], Out) :-
    put_char(Out, Character),
    characters(Characters, Out).
