# Writes a city of 256 by 256 corners, 65,536 in all, into the files streets, rides and corners: streets of 100 m for both ways, but for some that go one way,
# and rides of 2 to 9 minutes between corners some blocks apart. With plain=1 every street goes both ways and there are no rides.
function name(row, column) { return "r" row "c" column }
BEGIN {
    side = 256
    print "from,to,metres,oneway" >streets
    print "from,to,departure,arrival" >rides
    print "name,east,north" >corners
    # Not along the rows: whoever reads this has to find near numbers for near corners by himself.
    for (i = 0; i < side * side; i++) {
        v = i * 40503 % (side * side)
        row = int(v / side); column = v % side
        one = !plain && v % 17 == 0 ? "yes" : ""
        if (column + 1 < side) print name(row, column) "," name(row, column + 1) ",100," one >streets
        if (row + 1 < side) print name(row + 1, column) "," name(row, column) ",100," >streets
        print name(row, column) "," column * 100 "," (-100 * row) >corners
        if (plain || v % 2) continue
        far = (row + v % 31) % side; beside = (column + 3 + v % 7) % side
        start = 32400 + v * 7919 % 3600; end = start + 120 + v % 420
        print name(row, column) "," name(far, beside) "," clock(start) "," clock(end) >rides
    }
}
function clock(s) { return sprintf("%d:%02d:%02d", s / 3600, s / 60 % 60, s % 60) }
