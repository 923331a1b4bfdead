/* A name that nothing defines: refusal 21, with its line and column. */
%token NUMBER
%%
sum : sum '+' part
    | NUMBER
    ;
