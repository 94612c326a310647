*  EMP written by GAMS Convert
*
*  Equation counts
*      Total        E        G        L        N
*          2        2        0        0        0

Variables  x1,x2,x3,x4;

Positive Variables  x1,x2;

Equations  e1,e2;

e1..  (10 - x1 - x2)*x1 - 2*x1 - x3 =E= 0;

e2..  (10 - x1 - x2)*x2 - 2*x2 - x4 =E= 0;

* set non-default bounds
x2.up = 2;

Model m / all /;

m.limrow=0; m.limcol=0;

$if NOT '%gams.u1%' == '' $include '%gams.u1%'

Solve m using EMP;
