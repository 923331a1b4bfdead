%token A B
%left '+'
