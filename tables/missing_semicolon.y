/* A rule without its `;`: refusal 20, at the first byte that no text of the grammar can have there, the colon of the next rule. */
%token NUMBER
%%
sum  : sum '+' part
     | part
part : NUMBER ;
