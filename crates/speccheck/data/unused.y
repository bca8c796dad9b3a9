%token EINS 'zwei"' '\' 'x	y'
%%
wort: EINS;
/* Länge */ rest: wort;
