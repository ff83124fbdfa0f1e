* The model of shifts.mps without the markers, so that half a nurse could begin: it is refused, since an answer to another
* model would be no proof.
* How many nurses begin work in each of four shifts? Each works two shifts in turn, and the four shifts need 4, 7, 5 and 3.
* A nurse who begins in the afternoon costs 11, at night 14, at any other time 10. At most 9 can begin in a shift.
NAME          PARTTIME
ROWS
 N  COST
 G  MORNING
 G  AFTERNOON
 G  EVENING
 G  NIGHT
COLUMNS
    FROM1     COST                10   MORNING             1
    FROM1     AFTERNOON            1
    FROM2     COST                11   AFTERNOON           1
    FROM2     EVENING              1
    FROM3     COST                10   EVENING             1
    FROM3     NIGHT                1
    FROM4     COST                14   NIGHT               1
    FROM4     MORNING              1
RHS
    NEED      MORNING              4   AFTERNOON           7
    NEED      EVENING              5   NIGHT               3
BOUNDS
 UP MOST      FROM1                9
 UP MOST      FROM2                9
 UP MOST      FROM3                9
 UP MOST      FROM4                9
ENDATA
