%implicit_tokens WS WS
%token WS
%left WS
%%
s: 'é' WS | 'ü' %prec 'é';
