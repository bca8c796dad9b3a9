%token NUM
%parse-param p::q
%%
