* Two producers of power share one cap on emissions, and one price of permits holds for both.
*
* The price of power is 60 less both outputs. A unit costs the coal plant 10 and the gas plant 20.
* A unit of coal power emits 2 and one of gas power 1; together they may emit 36.
* The cap is a constraint of both under visol, so its multiplier is one number. It is -7: a permit is worth 7 to each.
* Without the cap coal would make 20 and gas 10; with it coal makes 13, and gas stays at 10.
Variables coalProfit, gasProfit, permit;
Positive Variables coal, gas;
Equations dCoal, dGas, cap;
dCoal.. coalProfit =e= (60 - coal - gas)*coal - 10*coal;
dGas.. gasProfit =e= (60 - coal - gas)*gas - 20*gas;
cap.. 2*coal + gas =l= 36;
Model emissions / all /;
Solve emissions using EMP;
