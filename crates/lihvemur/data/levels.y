/* Sums with levels. No conflict. */
%token NUMBER
%%
sum  : sum '+' part
     | part
     ;
part : NUMBER
     | '(' sum ')'
     ;
