/* The parameters of a lambda, and a tuple.
   Known: not ambiguous, and LR(k) for no k: only behind the closing parenthesis the arrow tells. */
%token ID ARROW
%%
expression
    : ID
    | '(' tuple ')'
    | '(' parameters ')' ARROW expression
    ;
tuple
    : expression
    | tuple ',' expression
    ;
parameters
    : parameter
    | parameters ',' parameter
    ;
parameter : ID ;
