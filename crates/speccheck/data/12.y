%token NUM
	%fallback NUM
%%
sum: NUM;
