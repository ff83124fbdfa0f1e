* Three items of worth 60, 100 and 120 and of weight 10, 20 and 30, and a knapsack that holds 50.
* The worth is negated, since the objective is minimised. A column without a bound is 0 or 1.
NAME          KNAPSACK
ROWS
 N  PROFIT
 L  WEIGHT
COLUMNS
    MARKER    'MARKER'                 'INTORG'
    A         PROFIT             -60   WEIGHT              10
    B         PROFIT            -100   WEIGHT              20
    C         PROFIT            -120   WEIGHT              30
    MARKER    'MARKER'                 'INTEND'
RHS
    RHS       WEIGHT              50
ENDATA
