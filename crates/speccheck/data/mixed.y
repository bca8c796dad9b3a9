%left 'a'%left 'a'
%%s: 'a'
 | none;
