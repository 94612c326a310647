Variables North, South, Flow;
Equations n, s, gap;
n.. 120 - 3*North - Flow =n= 0;
s.. 60 - 2*South + Flow =n= 0;
gap.. South - North - 4 =n= 0;
Model market / all /;
Solve market using EMP;
