* Two kinds of crate hold 2 items each, and exactly 3 items are to be packed: no whole numbers of crates do.
NAME          ODDTOTAL
ROWS
 N  COST
 E  ITEMS
COLUMNS
    MARKER                 'MARKER'                 'INTORG'
    WOODEN    COST               2   ITEMS              2
    PLASTIC   COST               3   ITEMS              2
    MARKER                 'MARKER'                 'INTEND'
RHS
    RHS       ITEMS              3
BOUNDS
 UP BND       WOODEN             5
 UP BND       PLASTIC            5
ENDATA
