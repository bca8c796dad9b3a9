%start s
%start t
%%s:;t:;