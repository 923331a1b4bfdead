/* A sequence whose parts may be empty.
   Known: ambiguous: nothing at all is an empty sequence, or one with an empty part, and a word is a part by itself or in one
   (bison's manual, "Reduce/reduce conflicts"). */
%token WORD
%%
sequence
    : %empty
    | part
    | sequence WORD
    ;
part
    : %empty
    | WORD
    ;
