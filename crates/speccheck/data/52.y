%union value { int number; }
%%
sum: ;
