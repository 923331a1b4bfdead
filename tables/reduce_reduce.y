/* Two nonterminals for the same word.
   After ID a NAME follows in both cases, and only what comes after it tells a type from a value: class 6, one token of lookahead is not enough. */
%token NAME VALUE ID
%%
block     : '{' statement '}' ;
statement : type NAME '=' VALUE
          | value NAME
          ;
type      : ID ;
value     : ID ;
