%token A
#ifdef FANCY
%token B
#endif
%%
#line 12 "other.y"
# 13 "other.y"
list: A
#if FANCY
    | list B
#endif
    ;
