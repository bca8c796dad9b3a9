%left 'ä"ö' '+' 'ä"ö'
%token '\n' 'x	y'
%expect-unused 'größe'
%epp betrag "ein \"Betrag\""
%%
/* Straße */ summe: summe '+' betrag | 'ä"ö' /* ü */ %prec '\n' ;
