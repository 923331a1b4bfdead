%{
/* a brace } in a prologue, and %% too */
#include <stdio.h>
%}
%require "3.2"
%language "c++"
%skeleton "lalr1.cc"
%define api.value.type variant
%define parse.error verbose
%code requires { struct tree; }
%union { int number; struct tree *tree; }
%parse-param {int *result} {char *name}
%lex-param {void *scanner}
%locations
%name-prefix="calc_"
%expect 0
%initial-action { @$.begin = 1; }
%destructor { free($$); } <tree> NUMBER
%printer { fprintf(yyo, "%d", $$); } NUMBER;
%token <number> NUMBER 258 "number" NAME POWER "**"
%token END 0 "end of file" YYERROR_ 256
%type <tree> line expr
%left '+' '-'   // the lowest
%left '*' '/'
%precedence UNARY
%right '^', "**"
%no-default-prec
%default-prec
%start input
%%

input
  : %empty
  | input line
  ;

line: expr[value] '\n'   { printf("}%d{", $value); /* } */ }
    | error '\012' { yyerrok; }
    | NAME { $<number>$ = '}'; } '=' expr '\x0a' ;

expr
  : expr '+' expr
  | expr '-' expr | expr '*' expr
  | expr '/' expr
  | '-' expr %prec UNARY { $$ = -$2; }
  | expr "**" expr
  | expr '^' expr
  | '(' expr ')'
  | "number"
#line 7 "other.y"
term: '!'
    ;
expr: NUMBER term
    | %?{ yes() } term YYEOF
%%
What stands behind is no grammar: { ' "
