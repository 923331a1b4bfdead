/* A word that is a name before a comma in one place, and a type before a comma in another.
   Known: LALR alone: the LR(1) states keep both places apart, the LALR states join them (bison's manual, "Mysterious conflicts"). */
%token ID
%%
function
    : parameter result ','
    ;
parameter
    : type
    | names ':' type
    ;
result
    : type
    | name ':' type
    ;
names
    : name
    | name ',' names
    ;
type : ID ;
name : ID ;
