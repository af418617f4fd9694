# Writes scripts for a listing of a kind, for a seed: at most three processes, each with a few operations, and now and then a crash.
#   awk -v seed=N -v kind=KIND -f random.awk -f scripts.awk
BEGIN {
    seed_by(seed * 7919 + 7)
    n = chance(20) ? 1 : within(2, 3)
    w = kind == "multi" ? within(1, 3) : n
    print "shape " n " " w
    for (i = 1; i <= n; i++) {
        for (k = chance(10) ? 0 : within(1, 3); k > 0; k--) print i " " (chance(50) ? "scan" : "update " (chance(5) ? within(0, w + 1) : kind == "multi" ? within(1, w) : i) " " value())
        if (chance(25)) print i " crash " within(1, 30)
    }
}

function value() { return chance(85) ? within(0, 9) : among("255 256 1000 2147483647 18446744073709551615 18446744073709551614") }
