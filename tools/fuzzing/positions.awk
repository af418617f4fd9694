# Whether a session keeps its own word: each command is written as it was said, positions are where steps lead, marks are counted, and
# a refused command leaves both as they were. Prints what is wrong.
#   awk -v total=ITEMS -f positions.awk COMMANDS REPLIES
FNR == NR { said[++commands] = $0; next }

/^> / {
    if (asked > 0) judge()
    if (substr($0, 3) != said[++asked]) print "command " asked " is written as: " $0
    command = substr($0, 3)
    answered = ""
    next
}

answered == "" { answered = $0; reply = $1; number = $2 }

END {
    if (asked > 0) judge()
    if (asked != commands) print asked " of " commands " commands are answered"
}

# The reply to the last command.
function judge(word) {
    split(command, word, " ")
    if (word[1] ~ /^(step|back|goto|run|rrun)$/) judge_move(word[1], word[2] + 0)
    else if (word[1] ~ /^(break|clear|watch|unwatch)$/) judge_mark(word[1])
    else if (word[1] == "where" && number != position) print command ": " answered " is not at " position
}

function judge_move(verb, count, least, greatest) {
    least = greatest = position
    if (reply != "refused:") least = greatest = verb == "step" ? min(position + count, total) : verb == "back" ? max(position - count, 0) : count
    else if (verb != "goto" || count <= total) print command ": " answered
    if (verb == "run") { least = min(position + 1, total); greatest = total }
    if (verb == "rrun") { least = 0; greatest = max(position - 1, 0) }
    if (reply != "refused:" && (number < least || number > greatest)) print command ": " answered " after position " position
    if (reply != "refused:") position = number + 0
}

function judge_mark(verb, mark, is_set) {
    mark = command
    is_set = sub(/^(break|watch) /, "", mark)
    if (!is_set) sub(/^(clear|unwatch) /, "", mark)
    mark = (verb ~ /watch/ ? "watch " : "break ") mark
    if (answered == "refused: G6 TooManyMarks" && (!is_set || marks != 64 || (mark in marked))) print command ": " answered
    if (reply == "refused:") return
    if (is_set && !(mark in marked)) { marked[mark] = 1; marks++ }
    if (!is_set && (mark in marked)) { delete marked[mark]; marks-- }
    if (answered != "marks " marks + 0) print command ": " answered ", where " marks " are set"
}

function min(a, b) { return a < b ? a : b }

function max(a, b) { return a > b ? a : b }
