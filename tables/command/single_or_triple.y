/* One A, or two and a B.
   Known: not ambiguous, and not LR(1): behind the first A two tokens tell, A B from A A (Isradisaikul and Myers, 2015). */
%token A B
%%
list
    : item
    | list item
    ;
item
    : single
    | triple
    ;
single : A ;
triple : A A B ;
