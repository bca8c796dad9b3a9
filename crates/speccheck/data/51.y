%token NUMBER
%{
#include <stdio.h>
%%
sum: NUMBER;
