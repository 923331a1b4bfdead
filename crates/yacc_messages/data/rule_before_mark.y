%token A
list: A | list A ;
other: list lisst ;
