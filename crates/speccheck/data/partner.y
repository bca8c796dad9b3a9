%token <number> NUMBER 258
%type <number> sum
%left '+' 300 '-' '+' 301
%%
line: sum '\n' | error '\n';
sum: sum '+' sum | NUMBER;
