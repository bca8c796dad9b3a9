%token A
s: A;
