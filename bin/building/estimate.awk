# How far the proofs of a build are, and how long the rest may take. It reads three files: the seconds that crates took where that was
# measured; then, after the word part=2, the crates that have ended, 'NAME proved' or 'NAME kept'; after part=3 the crates, with those
# that each stands on. lanes is how many are proved at once; passed how many seconds the build took up to the end of the last proof, since
# how many have gone by after it.

# What the longest chain of crates takes that ends with this one, where those of a set are proved and the others are there.
function chain(name, set, k, n, names, longest) {
    if (!(name in below)) return 0
    if ((name, set) in known) return known[name, set]
    n = split(below[name], names, " ")
    for (k = 1; k <= n; k++) if (chain(names[k], set) > longest) longest = chain(names[k], set)
    return known[name, set] = longest + (state[name] == set ? took[name] : 0)
}

# What the crates of a set take: as long as the longest chain of them, and no less than all of them on the lanes that there are.
function time_for(set, name, longest) {
    for (name in below) {
        if (state[name] == set) share[set] += took[name]
        if (chain(name, set) > longest) longest = chain(name, set)
    }
    return longest > share[set] / lanes ? longest : share[set] / lanes
}

{ sub(/#.*/, "") }

part == 2 { ended[$1] = $2; next }

part == 3 && /:/ {
    name = $1
    sub(/:.*/, "", name)
    sub(/^[^:]*:/, "")
    below[name] = $0
    took[name] = name in seconds ? seconds[name] : 60
    state[name] = name in ended ? ended[name] : "left"
    all += took[name]
    next
}

NF == 2 { seconds[$1] = $2 }

END {
    if (lanes < 1) lanes = 1
    left = time_for("left")
    done = time_for("proved")
    # two minutes as measured go before, so that the first crates do not tell too much
    pace = (passed + 120) / (done + 120)
    printf "%d %% of the work", 100 * (1 - share["left"] / all)
    # what has taken long already will hardly end at once
    if (left > 0) printf ", about %d min left", (left * pace > 1.25 * since ? left * pace - since : since / 4) / 60 + 1
}
