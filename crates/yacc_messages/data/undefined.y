%token NUMBER PLUS
%%
list: expr | list ',' expr ;
expr: NUMBER PLUS exprs
    | NUMBRE
    | "++" expr
    | something_else_altogether
    | 'x'
    ;
