%token NUM
/* the tokens
%%
sum: NUM;
