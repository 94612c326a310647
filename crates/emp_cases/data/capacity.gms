Variables day, night, price;
Equations d, e, rent;
d.. 40 - 2*day - price =n= 0;
e.. 25 - night - price =n= 0;
rent.. day + night - 30 =n= 0;
Model station / all /;
Solve station using EMP;
