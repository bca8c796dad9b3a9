%token NUM
%%
sum: NUM;
