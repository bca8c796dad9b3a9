%token NUM
%epp NUM "a
number"
%%
sum: NUM;
