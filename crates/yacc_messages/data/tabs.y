%token A
%%
list:	A	B
    | "日本" C
    | 'é'	D ;
