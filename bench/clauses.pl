% Goals put to programs that plans were handed back as. For each goal of a file a line `goal` is written, and then its answers in their order, each
% symbol by symbol as facts.pl writes a fact. Only what SWI-Prolog and GNU Prolog share is used; each has its own way to load a program.

% Asks the goals of From, which is a file, and writes what is answered to To.
ask(From, To) :-
    open(From, read, In),
    open(To, write, Out),
    asked(In, Out),
    close(In),
    close(Out).

asked(In, Out) :-
    read_term(In, Goal, []),
    (   Goal == end_of_file -> true
    ;   write(Out, goal), nl(Out),
        catch(findall(Goal, call(Goal), Answers), Error, (Answers = [], write(Out, error(Error)), nl(Out))),
        said(Answers, Out),
        asked(In, Out)
    ).

said([], _).
said([Answer|Answers], Out) :-
    \+ \+ fact(Answer, Out),
    said(Answers, Out).

% For each `NAME.` in the file `list`: NAME.pl is loaded, NAME.goals are asked, and all of it is forgotten again.
every_program :-
    open(list, read, Names),
    programs(Names),
    close(Names).

programs(Names) :-
    read_term(Names, Name, []),
    (   Name == end_of_file -> true
    ;   one_program(Name), programs(Names)
    ).

one_program(Name) :-
    atom_concat(Name, '.pl', Program),
    atom_concat(Name, '.goals', Goals),
    atom_concat(Name, '.answers', Answers),
    load_files(Program, []),
    ask(Goals, Answers),
    unload_file(Program).
