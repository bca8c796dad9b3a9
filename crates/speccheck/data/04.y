%token NUM
%%
sum: NUM