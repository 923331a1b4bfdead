%token A B C UNUSED
%token A
%left LOW HIGH
%type <tree> lst list
%%
list: A list
    | B B B
    | A { first(); } B
    | B B B  { again(); }
    | B B B
    | A B A
    | A B A
    | %empty %prec HIHG
    ;
never: A never ;
lost: "lost" C ;
