%token NUM
%%
sum: NUM { $$ = { $1; } ;
