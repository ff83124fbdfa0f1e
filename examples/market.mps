* Twenty shops are to be given to two divisions so that each of three products' sales is halved: the sum of what the
* halves miss is to be least. Such market splits are small and hard, and this one isn't decided within 200 nodes.
NAME          MARKET
ROWS
 N  MISSED
 E  PRODUCT1
 E  PRODUCT2
 E  PRODUCT3
COLUMNS
    MARKER    'MARKER'                 'INTORG'
    SHOP1     PRODUCT1             67
    SHOP1     PRODUCT2             91
    SHOP1     PRODUCT3             51
    SHOP2     PRODUCT1             81
    SHOP2     PRODUCT2             15
    SHOP2     PRODUCT3             66
    SHOP3     PRODUCT1             69
    SHOP3     PRODUCT2             86
    SHOP3     PRODUCT3             85
    SHOP4     PRODUCT1             67
    SHOP4     PRODUCT2             60
    SHOP4     PRODUCT3             35
    SHOP5     PRODUCT1             75
    SHOP5     PRODUCT2             67
    SHOP5     PRODUCT3             76
    SHOP6     PRODUCT1             85
    SHOP6     PRODUCT2             93
    SHOP6     PRODUCT3             39
    SHOP7     PRODUCT1             34
    SHOP7     PRODUCT2             88
    SHOP7     PRODUCT3             91
    SHOP8     PRODUCT1             33
    SHOP8     PRODUCT2             93
    SHOP8     PRODUCT3             47
    SHOP9     PRODUCT1             75
    SHOP9     PRODUCT2             30
    SHOP9     PRODUCT3             73
    SHOP10    PRODUCT1             70
    SHOP10    PRODUCT2             89
    SHOP10    PRODUCT3             10
    SHOP11    PRODUCT1             90
    SHOP11    PRODUCT2             11
    SHOP11    PRODUCT3             94
    SHOP12    PRODUCT1             88
    SHOP12    PRODUCT2             77
    SHOP12    PRODUCT3             20
    SHOP13    PRODUCT1             33
    SHOP13    PRODUCT2             18
    SHOP13    PRODUCT3             68
    SHOP14    PRODUCT1             22
    SHOP14    PRODUCT2             17
    SHOP14    PRODUCT3             93
    SHOP15    PRODUCT1             67
    SHOP15    PRODUCT2             14
    SHOP15    PRODUCT3             45
    SHOP16    PRODUCT1             48
    SHOP16    PRODUCT2             34
    SHOP16    PRODUCT3             62
    SHOP17    PRODUCT1             28
    SHOP17    PRODUCT2             40
    SHOP17    PRODUCT3             80
    SHOP18    PRODUCT1             21
    SHOP18    PRODUCT2             86
    SHOP18    PRODUCT3             20
    SHOP19    PRODUCT1             78
    SHOP19    PRODUCT2             13
    SHOP19    PRODUCT3             42
    SHOP20    PRODUCT1             98
    SHOP20    PRODUCT2             69
    SHOP20    PRODUCT3             50
    MORE1     MISSED                1   PRODUCT1          -1
    LESS1     MISSED                1   PRODUCT1           1
    MORE2     MISSED                1   PRODUCT2          -1
    LESS2     MISSED                1   PRODUCT2           1
    MORE3     MISSED                1   PRODUCT3          -1
    LESS3     MISSED                1   PRODUCT3           1
    MARKER    'MARKER'                 'INTEND'
RHS
    HALF      PRODUCT1            614
    HALF      PRODUCT2            545
    HALF      PRODUCT3            573
BOUNDS
 UP MOST      SHOP1                  1
 UP MOST      SHOP2                  1
 UP MOST      SHOP3                  1
 UP MOST      SHOP4                  1
 UP MOST      SHOP5                  1
 UP MOST      SHOP6                  1
 UP MOST      SHOP7                  1
 UP MOST      SHOP8                  1
 UP MOST      SHOP9                  1
 UP MOST      SHOP10                 1
 UP MOST      SHOP11                 1
 UP MOST      SHOP12                 1
 UP MOST      SHOP13                 1
 UP MOST      SHOP14                 1
 UP MOST      SHOP15                 1
 UP MOST      SHOP16                 1
 UP MOST      SHOP17                 1
 UP MOST      SHOP18                 1
 UP MOST      SHOP19                 1
 UP MOST      SHOP20                 1
 UP MOST      MORE1                500
 UP MOST      LESS1                500
 UP MOST      MORE2                500
 UP MOST      LESS2                500
 UP MOST      MORE3                500
 UP MOST      LESS3                500
ENDATA
