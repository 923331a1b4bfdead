/* A declaration in C, where the lexer does not know the types.
   Known: ambiguous: a * b ; declares a pointer, or is a product. */
%token ID
%%
statement
    : declaration ';'
    | product ';'
    ;
declaration
    : type declarator
    ;
declarator
    : ID
    | '*' declarator
    ;
product
    : factor
    | product '*' factor
    ;
factor : ID ;
type   : ID ;
