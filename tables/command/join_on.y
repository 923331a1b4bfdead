/* A JOIN whose ON may be left out.
   Known: ambiguous: in a JOIN b JOIN c ON d the ON may belong to either JOIN, and a JOIN b JOIN c has no order. */
%token NAME JOIN ON
%%
tables
    : NAME
    | tables JOIN tables
    | tables JOIN tables ON condition
    ;
condition
    : NAME '=' NAME
    ;
