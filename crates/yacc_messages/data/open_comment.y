%token A
%%
list: A /* a list
    | list A ;
