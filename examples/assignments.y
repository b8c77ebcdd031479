// Assignments through pointers: a grammar that is LALR(1) and not SLR(1).

%start S

%%

S: L '=' R
 | R
 ;

L: '*' R
 | "id"
 ;

R: L
 ;
