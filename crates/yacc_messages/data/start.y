%token A
%start lst
%%
list: A ;
