/* Words that read the same backwards.
   Known: not ambiguous, and LR(k) for no k: no number of tokens tells where the middle is. */
%token A B
%%
palindrome
    : %empty
    | A palindrome A
    | B palindrome B
    ;
