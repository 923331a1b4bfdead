/* Two reductions that the first token tells apart.
   Known: LALR alone: the textbook's grammar that is LR(1) and not LALR(1). */
%token A B C D E
%%
sentence
    : A first D
    | B second D
    | A second E
    | B first E
    ;
first  : C ;
second : C ;
