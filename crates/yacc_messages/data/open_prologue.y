%{
#include <stdio.h>
%token A
%%
list: A ;
