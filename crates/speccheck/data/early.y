%token A
%token
B
%%
s: A;
