%token A
%%
s: 'x A 'y' A;
