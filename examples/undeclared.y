%token NUMBER
%%
sum: NUMBER | sum plus NUMBER;
