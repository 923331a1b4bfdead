/* An optional part as a nonterminal of its own.
   Before FN it is open whether there is an empty `modifier`: class 4, STATIC? in its place. */
%token FN NAME TYPE STATIC
%%
block       : '{' declaration '}' ;
declaration : modifier FN NAME
            | FN TYPE
            ;
modifier    : /* nothing */
            | STATIC
            ;
