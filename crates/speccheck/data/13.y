%token
%%
sum: 'n';
