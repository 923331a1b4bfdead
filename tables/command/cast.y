/* A cast in C, where the lexer does not know the types.
   Known: ambiguous: (a) - b is a difference, or a cast of -b. */
%token ID
%%
difference
    : unary
    | difference '-' unary
    ;
unary
    : primary
    | '-' unary
    | '(' type ')' unary
    ;
primary
    : ID
    | '(' difference ')'
    ;
type : ID ;
