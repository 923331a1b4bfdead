%token A
%%
list: A B