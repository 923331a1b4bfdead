%token <tree NUMBER
%token WORD 'a
%token OTHER "abc
%token '' X
%
%token Y ? Z
%%
list: NUMBER 'b
    | WORD[ OTHER
    | 'x' ? ? ? Y
    | 'ab' '\x41' '\101' 'Y' | '+ Y '-'
    ;
