/* The AND of BETWEEN, and the AND of conditions.
   Known: ambiguous: in a BETWEEN b AND c AND d the second AND may belong to the range or to the condition. */
%token NAME AND BETWEEN
%%
condition
    : condition AND condition
    | condition BETWEEN condition AND condition
    | NAME
    ;
