# What simulations of models printed, each in a file of its own, as snaplab has it. Numbers of a model below 0 stand for the greatest of
# 64 bits.
#   awk -v what=WHAT -f ended.awk FILE ..
# what=schedules: the items of each, as a part of the input of 'snaplab batch'; with -v shape='shape N W'
# what=reports: the registers of each, and then its processes with their locals
# what=turns: each process that crashes at another turn than its script says, or does not crash at this; with -v scripts=FILE
# what=points: how many scans of each have answered, and how many of these have no point
BEGIN { if (what == "turns") while ((getline line <scripts) > 0) if (split(line, word, " ") == 3 && word[2] == "crash") turn_of[word[1]] = word[3] }

function number(text) { return text ~ /^-[0-9]+$/ ? "184467440" sprintf("%.0f", 73709551616 + text) : text }

function end_file(k) {
    if (what == "reports") for (k = 0; k <= last; k++) printf "%s", said[k]
    if (what == "turns") for (k in turn_of) if (k in crashed ? crashed[k] != turn_of[k] : turns[k] >= turn_of[k]) print "schedule " files " process " k
    if (what == "points") print "schedule " files " scans " answered + 0 " without point " missing + 0
}

FNR == 1 {
    if (files) end_file()
    files++
    split("", said)
    split("", turns)
    split("", crashed)
    last = answered = missing = 0
    if (what == "schedules") print "%\n" shape
    if (what == "reports") print "schedule " files
}

{ gsub(/\t/, " ") }

what == "schedules" && $1 == "@" {
    $1 = ""
    print substr($0, 2)
}

what == "turns" && $1 == "@" {
    turns[$2]++
    if ($3 == "crash") crashed[$2] = turns[$2]
}

what == "points" && $1 == "?" {
    answered++
    if ($3 == "none") missing++
}

what == "reports" && $1 == "=" {
    process = $2
    line = ""
    for (k = 3; k <= NF; k++) line = line (k > 3 ? " " : "") number($k)
    said[process] = said[process] line "\n"
    if (process > last) last = process
}

END { if (files) end_file() }
