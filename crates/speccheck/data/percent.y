%token A
%start s
s: A;
