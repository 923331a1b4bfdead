%token A
%%
list: A | B ;
other: C