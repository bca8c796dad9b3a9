%token NUM 9
%%
s: NUM;
