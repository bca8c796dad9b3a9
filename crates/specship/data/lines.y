%left A // or
%right B /* and
*/
%parse-param a: :b
%%s:A|B;%%
  // kept
