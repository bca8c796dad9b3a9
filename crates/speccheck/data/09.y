%token NUM
%%
sum: NUM %empty;
