%token NUMBER
%%
sum
    : sum '+' NUMBER
    | NUMBER
    ;
