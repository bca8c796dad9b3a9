%start sums
%token NUM
%left '+'
%epp NUMBER "a number"
%expect-unused 'minus'
%%
sum: sum '+' NUM
   | difference '-' NUM %prec MINUS
   ;
