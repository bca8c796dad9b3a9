%type sum
%%
sum: ;
