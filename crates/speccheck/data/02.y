%start 9lives
%%
s: ;
