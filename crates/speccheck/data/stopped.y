%left 'a'
%left 'b' 'a'
%start
%%
s: 'a';
