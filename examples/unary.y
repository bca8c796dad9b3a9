%token INT
%left '+' '-'
%left '*' '/'
%nonassoc UMINUS
%%
expr: expr '+' expr
    | expr '-' expr
    | expr '*' expr
    | expr '/' expr
    | '-' expr %prec UMINUS
    | '(' expr ')'
    | INT
    ;
