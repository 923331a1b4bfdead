/* The dangling else, settled by precedence.
   Known: none: the level of ELSE is above that of the rule without it. */
%token IF X
%precedence LOW
%precedence ELSE
%%
statement
    : IF statement %prec LOW
    | IF statement ELSE statement
    | X
    ;
