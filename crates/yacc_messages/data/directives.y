%tokn NUMBER
%ifdef FANCY
%token FANCY
%endif
%token
%left
%start
%expect many
%type <tree>
%prec NUMBER
%frobnicate { all of this } is skipped
%token NUMBER
%%
list: NUMBER ;
%empty
