%union
{ int number; }
%%
sum: ;
