*  EMP WRITTEN BY GAMS CONVERT
*
*  EQUATION COUNTS
*      TOTAL        E        G        L        N
*          2        2        0        0        0

VARIABLES  X1,X2,X3,X4;

POSITIVE VARIABLES  X1,X2;

EQUATIONS  E1,E2;

E1..  (10 - X1 - X2)*X1 - 2*X1 - X3 =E= 0;

E2..  (10 - X1 - X2)*X2 - 2*X2 - X4 =E= 0;

* SET NON-DEFAULT BOUNDS
X2.UP = 2;

MODEL M / ALL /;

M.LIMROW=0; M.LIMCOL=0;

$IF NOT '%GAMS.U1%' == '' $INCLUDE '%GAMS.U1%'

SOLVE M USING EMP;
