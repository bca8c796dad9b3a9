%token NUM
%%
sum NUM;
