/* A nonterminal that is reduced too early.
   After ID it is open whether it is a type: class 3, `type` written out in place would do. */
%token NAME VALUE ID KIND
%%
block       : '{' declaration '}' ;
declaration : type NAME '=' VALUE
            | ID NAME ':' KIND
            ;
type        : ID ;
