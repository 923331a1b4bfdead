%token A
%%
list: A list | other list ;
other: ;
