%left 'a'
%left 'b' 'a'
%%
s: 'a' | 'b';
