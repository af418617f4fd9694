# Whether an audit says what a run shows: one verdict for each answer, in their order, with its call; and the point is the first item
# from the call to the answer after which the values were the answered view. Prints what is wrong.
#   awk -v points=yes|no -f verdicts.awk WALK REPORT AUDIT
# The walk is a session that shows the values after each item; without one, points are not looked at.
FILENAME == ARGV[1] {
    if ($1 == "position") position = $2
    if ($1 == "values") values[position + 0] = rest(2)
    next
}

FILENAME == ARGV[2] && $1 == "event" {
    if ($4 == "scan") call[$3] = $2
    if ($4 == "answer") wanted[++answers] = "scan " $3 " call " call[$3] " answer " $2 " point " (points == "yes" ? point(call[$3], $2, rest(5)) " " : "")
    next
}

FILENAME == ARGV[3] {
    verdicts++
    if (wanted[verdicts] == "" || index($0, wanted[verdicts]) != 1 || $(NF - 1) != "collects" || NF != 10) print "verdict " verdicts ": " $0 ", wanted: " wanted[verdicts]
}

END { if (verdicts + 0 != answers + 0) print verdicts + 0 " verdicts for " answers + 0 " answers" }

# The fields from this one on.
function rest(k, text) {
    for (text = $(k++); k <= NF; k++) text = text " " $k
    return text
}

function point(from, to, view) {
    for (; from <= to; from++) if (values[from] == view) return from
    return "none"
}
