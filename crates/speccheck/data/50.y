%token <number NUMBER
%%
sum: NUMBER;
