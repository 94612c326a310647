* A city sets a toll on the road through town, and drivers choose between that road and the ring road.
*
* Ten drivers must travel. By the town road a trip takes 4 and 2 for each driver on it, and the toll; by the ring 12 and 1 for each.
* Each driver takes the road that costs less, so the two cost the same where both are used: town = 6 - toll/3.
* The city wants as little noise as it can have, which is the traffic in town; the ring road carries at most 7.
* The best toll is 9: then three drive through town, and any higher toll would put too many on the ring.
Variables noise, toll;
Positive Variables town, ring;
Equations least, full, byTown, byRing, travel;
least.. noise =e= town;
full.. ring =l= 7;
byTown.. 4 + 2*town + toll =n= 0;
byRing.. 12 + ring =n= 0;
travel.. town + ring =e= 10;
toll.lo = 0;
toll.up = 20;
Model city / all /;
Solve city using EMP minimizing noise;
