Variables x, y;
Equations f, g;
f.. x + y - 1 =n= 0;
g.. x + y - 2 =n= 0;
Model m / all /;
Solve m using EMP;
