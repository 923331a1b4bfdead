/* A calculator with precedence.
   Known: none: of its conflicts the levels settle each. */
%token NUMBER
%nonassoc '<'
%left '+' '-'
%left '*' '/'
%right '^'
%precedence NEGATION
%%
expression
    : NUMBER
    | expression '<' expression
    | expression '+' expression
    | expression '-' expression
    | expression '*' expression
    | expression '/' expression
    | expression '^' expression
    | '-' expression %prec NEGATION
    | '(' expression ')'
    ;
