%expect many
%%
s: ;
