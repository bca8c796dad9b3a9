%token INT
%left '+' '-'
%left '*' '/'
%expect-unused UNARY 'SEMI'
%token SEMI
%%
line: expr { print } ;
expr: expr '+' expr
    | expr '-' expr
    | expr '*' expr
    | expr '/' expr
    | '(' expr ')'
    | INT
    ;
UNARY: '-' INT;
