* A city pays a grant for each unit that a firm makes, and nothing bounds the grant: the answer is a ray.
*
* The firm makes output until its next unit costs the grant, so its output is the grant.
* The city counts 2 for each unit of output and takes off 1 for each unit of the grant.
* From the point of all 0, each step raises the grant and the output by 1, and with them the city's gain.
* The gain and the profit have no step: they are what their definitions give.
Variables gain, profit;
Positive Variables grant, output;
Equations counts, earns;
counts.. gain =e= 2*output - grant;
earns.. profit =e= grant*output - sqr(output)/2;
Model city / all /;
Solve city using EMP maximizing gain;
