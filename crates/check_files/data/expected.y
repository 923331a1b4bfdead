%token IF ELSE X
%expect 1
%%
statement
    : IF statement
    | IF statement ELSE statement
    | X
    ;
