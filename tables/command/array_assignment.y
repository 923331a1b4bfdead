/* Digits that stand side by side.
   Known: ambiguous at each of its three conflicts: the dangling ELSE; PLUS without an order; and behind an
   assignment a digit that goes on with the number or begins the next statement (Isradisaikul and Myers, 2015). */
%token IF THEN ELSE ARRAY ASSIGN DIGIT
%%
statement
    : IF expression THEN statement ELSE statement
    | IF expression THEN statement
    | expression '?' statement statement
    | ARRAY '[' expression ']' ASSIGN expression
    ;
expression
    : number
    | expression '+' expression
    ;
number
    : DIGIT
    | number DIGIT
    ;
