%token NUM
%%
sum: NUM { one } NUM;
