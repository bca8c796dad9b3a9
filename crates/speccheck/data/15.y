%token NUM
%expect-unused 9
%%
sum: NUM;
