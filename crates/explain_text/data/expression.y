/* Operators with levels, but for one that was forgotten; a call that is read in two ways. */
%token NUMBER NAME NOT
%left '+' '-'
%left '*' '/'
%nonassoc '<'
%right UMINUS
%%
list
    : /* nothing */
    | list line
    ;

line
    : expr ';' { print($1); }
    ;

expr
    : expr '+' expr
    | expr '-' expr
    | expr '*' expr
    | expr '/' expr
    | expr '<' expr
    | '-' expr %prec UMINUS
    | NOT expr
    | call
    | variable
    | NUMBER
    ;

call
    : NAME { look_up($1); } '(' ')'
    | NAME
    ;

variable
    : NAME
    ;
