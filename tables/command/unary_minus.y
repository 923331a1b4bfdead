/* Statements without anything between them, and a minus with one operand or two.
   Known: ambiguous: a - b is one statement or two. */
%token ID
%%
statements
    : statement
    | statements statement
    ;
statement
    : sum
    ;
sum
    : operand
    | sum '-' operand
    ;
operand
    : ID
    | '-' operand
    ;
