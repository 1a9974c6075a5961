# Prints the issued tables of the site of table files that sites.py writes.
BEGIN {
    for (tank = 1; tank <= 64; tank++) {
        print "tank " tank
        for (row = 0; row <= 5000; row++) print 10 * row, 20000 * row + tank
    }
}
