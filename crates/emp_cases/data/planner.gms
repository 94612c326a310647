* A planner meets a demand at the least cost; buyers and a small producer take the price as it is.
*
* The planner runs a hydro and a gas station. The price is the multiplier of what it must meet: what the next unit costs.
* Buyers buy until the next unit is worth the price to them: 64 less what they buy.
* The small producer makes power until its next unit costs the price: 10 and 2 for each unit that it makes.
* At the price 23 hydro makes 23, gas 23/2 and the small producer 13/2, together 41, which is what buyers buy.
Variables cost, price;
Positive Variables hydro, gas, demand, small;
Equations total, meet, buy, next;
total.. cost =e= sqr(hydro)/2 + sqr(gas);
meet.. hydro + gas + small =g= demand;
buy.. price - (64 - demand) =n= 0;
next.. 10 + 2*small - price =n= 0;
Model planner / all /;
Solve planner using EMP;
