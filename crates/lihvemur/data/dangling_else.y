/* The dangling else.
   An else after two ifs belongs to the inner or to the outer one: class 1, ambiguity. */
%token IF ELSE X
%%
statement
    : IF statement
    | IF statement ELSE statement
    | X
    ;
