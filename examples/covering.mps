* Cover a demand of 7 with pieces of 2 and of 3 at the least cost, where a piece costs what it covers.
NAME          COVERING
ROWS
 N  COST
 G  DEMAND
COLUMNS
    MARKER                 'MARKER'                 'INTORG'
    TWOS      COST               2   DEMAND             2
    THREES    COST               3   DEMAND             3
    MARKER                 'MARKER'                 'INTEND'
RHS
    RHS       DEMAND             7
BOUNDS
 UP BND       TWOS              10
 UP BND       THREES            10
ENDATA
