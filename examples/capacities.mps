* Four plans, each carried out up to five times, within two capacities: large
* numbers, and a box of 1,296 points. The best value is -36933189991, as
* examples/enumerate shows by trying every point; cbc 2.10.8 calls -35472445628
* optimal.
NAME          CAPACITIES
ROWS
 N  COST
 L  HOURS
 L  TONS
COLUMNS
    MARKER    'MARKER'                 'INTORG'
    PLAN1     COST       -3284756798   HOURS       1984609975
    PLAN1     TONS        1300146823
    PLAN2     COST       -3176702425   HOURS       2093814039
    PLAN2     TONS        1082888386
    PLAN3     COST       -3566306272   HOURS        605415571
    PLAN3     TONS        2960890701
    PLAN4     COST       -5067325152   HOURS       2321962696
    PLAN4     TONS        2745362456
    MARKER    'MARKER'                 'INTEND'
RHS
    RHS       HOURS      17514505702   TONS       20223220915
BOUNDS
 UP MOST      PLAN1                5
 UP MOST      PLAN2                5
 UP MOST      PLAN3                5
 UP MOST      PLAN4                5
ENDATA
