# Random numbers by Lehmer's generator: the same ones in every awk, since no product passes 2^53.
function seed_by(seed, k) {
    state = seed % 2147483646 + 1
    for (k = 0; k < 9; k++) below(1)
}

# A number from 0, below this one.
function below(bound) {
    state = state * 48271 % 2147483647
    return state % bound
}

# A number within these two.
function within(least, greatest) { return least + below(greatest - least + 1) }

function chance(percent) { return below(100) < percent }

# One of the words of a text.
function among(text, words) { return words[1 + below(split(text, words, " "))] }
