* Two regions trade one good, and each region's market is a variational inequality of its own.
*
* North and South are the prices, OutN and OutS the outputs, and Flow is what goes from North to South.
* People in the North buy 3 units for each unit of price below 40, and in the South 2 units for each below 60.
* An output of q costs q*q/2 in the North and q*q in the South, and it grows until the next unit costs its price.
* To move one unit costs 8.
* Prices count from Level, the level of all prices. No condition determines it: its function is zero.
Variables North, OutN, South, OutS, Flow, Level;
Equations sellN, nextN, sellS, nextS, move;
sellN.. OutN - Flow =n= 3*(40 - (North - Level));
nextN.. (sqr(OutN + 1) - sqr(OutN))/2 =n= North - Level;
sellS.. OutS + Flow =n= 2*(60 - (South - Level));
nextS.. sqr(OutS + 1) - sqr(OutS) =n= South - Level;
move.. North + 8 =n= South;
Model markets / all /;
Solve markets using EMP;
