* Two firms sell one good, and neither can make more than its plant allows.
*
* A firm chooses its output; the price is 30 less both outputs. A unit costs the first firm 6 and the second 3.
* The first plant makes at most 12 and the second at most 7.
* Without the plants' limits the outputs would be 7 and 10. The second plant makes 7, and the first firm answers with 17/2.
Variables profit1, profit2, q1, q2;
Equations d1, d2;
d1.. profit1 =e= (30 - q1 - q2)*q1 - 6*q1;
d2.. profit2 =e= (30 - q1 - q2)*q2 - 3*q2;
q1.lo = 0;
q1.up = 12;
q2.lo = 0;
q2.up = 7;
Model duopoly / all /;
Solve duopoly using EMP;
