%token NUM
%epp NUM "a number