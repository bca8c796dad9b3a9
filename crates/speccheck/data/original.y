%left '+' '-'
%right '+'	'-'
%avoid_insert INT INT
%expect 1
%expect 2
%expect-rr 3
%expect-rr 4
%start sum
%start sums
%actiontype A
%actiontype B
%epp INT "a number"
%epp INT "an integer"
%token INT SPARE
%%
sum: sum '+' INT | INT '-';
