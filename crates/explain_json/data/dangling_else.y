/* An ELSE behind two IFs belongs to the inner or to the outer one. */
%token IF ELSE X
%%
statement
    : IF statement
    | IF statement ELSE statement
    | X
    ;
