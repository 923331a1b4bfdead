/* A sum without levels.
   Which + of two is the outer one is open: class 2, precedence. */
%token NUMBER
%%
sum : sum '+' sum
    | NUMBER
    ;
