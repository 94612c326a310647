* A carrier ships goods from the plants A and B to the towns X and Y at the least cost.
*
* A can send 40 and B 80; X needs 50 and Y needs 60.
* The multiplier of a need is what the next unit there costs: 6 in X, as it comes from B, and 3 in Y.
* The multiplier of a plant's capacity is at most 0: one unit more at A saves 4, and B has units to spare.
Variables cost, rentA, rentB, priceX, priceY;
Positive Variables ax, ay, bx, by;
Equations total, capA, capB, needX, needY;
total.. cost =e= 2*ax + 5*ay + 6*bx + 3*by;
capA.. ax + ay =l= 40;
capB.. bx + by =l= 80;
needX.. ax + bx =g= 50;
needY.. ay + by =g= 60;
Model transport / all /;
Solve transport using EMP;
