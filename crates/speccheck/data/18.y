%token NUM
%epp NUM "a\tnumber"
%%
sum: NUM;
