%token A
%%
list: A { if (x) { y(); }
    | A A { "}" }
    ;
