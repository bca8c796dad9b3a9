%token A
/* é */ %nolint A
%%
s: A;
