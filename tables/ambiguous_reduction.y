/* X, then an optional Y, with the optional part written out.
   Two productions of `body` are the same: class 5, with the places of both in this file. */
%token X Y
%%
block : '{' body '}' ;
body  : x
      | x y
      | x
      ;
x     : X ;
y     : Y ;
