# Prints a script in which each of `domains` domains makes `count` of what `what` names, keeps it, and then has the lines `last`.
function one(k) {
    if (what == "private") print "alloc 1 0 4\nint 2 " k "\nstore 1 1 2\nload 3 1 1"
    if (what == "fields") print "store 1 1 2\nload 3 1 1\nstore 1 2 3\nload 4 1 2"
    if (what == "chain") print "alloc " 1 + k % 2 " 0 1\nstore " 1 + k % 2 " 0 " 2 - k % 2
    if (what == "ephemerons") {
        keeper(k)
        print "ephe 2 1\nset_key 2 0 0"
        keep(k, 2)
    }
    if (what == "finalise" || what == "finalise_last") {
        keeper(k)
        print "alloc 2 0 1\nalloc 3 0 1"
        if (what == "finalise") print "finalise 2 1 5\nfinalise 3 1 5"
        else print "finalise_last 2 1\nfinalise_last 3 1"
        keep(k, 3)
    }
}
# Keeps the block in register r in a field of the block in register 1, 125 in each, which the last field links.
function keep(k, r) { print "store 1 " k % 125 " " r }
function keeper(k) {
    if (k % 125) return
    print "alloc 4 0 126"
    if (k > 0) print "store 4 125 1"
    print "move 1 4"
}
BEGIN {
    print "heap 1"
    for (d = 0; d < domains; d++) {
        print "domain " d
        if (what == "fields") print "alloc 1 0 4\nint 2 7"
        for (k = 0; k < count; k++) one(k)
        if (what != "private" && what != "fields") print "drop 2\ndrop 3\ndrop 4"
        if (last != "") print last
    }
}
