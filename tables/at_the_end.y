/* Two readings of the same whole input.
   Where the input ends, x is a first or a second: a conflict with the end of input, class 0. */
%token X
%start input
%%
first  : X ;
second : X ;
input  : first
       | second
       ;
