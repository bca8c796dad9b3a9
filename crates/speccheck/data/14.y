%token NUM
%epp NUM number
%%
sum: NUM;
