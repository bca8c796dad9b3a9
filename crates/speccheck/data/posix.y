%{
#include <stdio.h>
int yylex(void);
%}
%union { int number; char *name; }
%token <number> NUMBER 258
%token <name> NAME 259 error
%left <number> '+' 300 '-' 301
%type <number> sum line
/* a comment that a line end and a slash
/ do not close */
%%
line: line sum '\n' { printf("%d\n", $2); } | error | ;
sum: sum '+' sum | sum '-' sum | NUMBER | NAME;
%%
int main(void) { return yyparse(); }
