%token A list
%left '+' A
%right '+'
%token B "b" C "b"
%start A
%start list
%%
list: A %prec list %prec LOW | B list C ;
