%token NUMBER
%%
sum
    : sum '+' part
    | NUMBER
    ;
