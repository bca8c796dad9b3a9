%token IDENT NUMBER
%left 'OR' // lowest
%left 'AND'
%nonassoc '=' '<'
%left '+' '-'
%left '*'
%start query
%%
query: select | select order;
select: 'SELECT' columns 'FROM' IDENT where;
columns: '*' | names;
names: IDENT | names ',' IDENT;
where: | 'WHERE' condition;
condition: condition 'OR' condition
         | condition 'AND' condition
         | value '=' value
         | value '<' value
         ;
value: IDENT | NUMBER | value '+' value | value '-' value | value '*' value;
order: 'ORDER' 'BY' names;
limit: 'LIMIT' NUMBER;
