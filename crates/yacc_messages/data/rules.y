%token A
%%
list A | list A ;
'a': A ;
;
{ action(); }
| A
list : A : A ;
error: A ;
list : A %empty
     | A %prec
     ;
