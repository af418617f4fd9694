# Writes a case for a seed into a folder: a listing as one may type it and in canonical text, a schedule, the same schedule cut
# after some item, debugger commands that end at this item, and a line of facts: kind, lines, processes, items.
#   awk -v seed=N -v into=FOLDER -v examples=FOLDER -f random.awk -f case.awk
BEGIN {
    MAX_LINE = 9999; MAX_LINES = 200; MAX_LOCALS = 32; MAX_PROCESSES = 16; MAX_MARKS = 64
    RESERVED = " kind seq bit multi scalar row words view scan update let get look put each first next if all goto call return" \
        " finish where and or not n w me word arg r q p v data hand toggle id "
    SORTS = "scalar row words view"
    LIMITS = "0 1 2 3 16 17 999 1000 9999 10000 18446744073709551614 18446744073709551615"
    seed_by(seed)
    make_listing()
    write_listing()
    make_schedule()
    write_schedule()
    write_commands()
    print kind, lines, n, items >(into "/facts")
}

# Listings.

function make_listing() {
    kind = among("seq bit multi")
    if (chance(45)) {
        take_shipped()
    } else {
        name_locals()
        number_lines()
        fill_lines()
    }
}

# The shipped listing of the kind, in some cases with a line or two of another form.
function take_shipped(file, text, words, k) {
    file = examples "/" (kind == "seq" ? "u" : kind == "bit" ? "b" : "m") ".txt"
    while ((getline text <file) > 0) {
        count = split(text, words, " ")
        if (index(" " SORTS " ", " " words[1] " ")) for (k = 2; k <= count; k++) add_name(words[1], words[k])
        else if (words[1] == "scan") scan = words[2]
        else if (words[1] == "update") update = words[2]
        else if (words[1] != "kind") { number[++lines] = words[1] + 0; form[lines] = substr(text, index(text, " ") + 1) }
    }
    close(file)
    for (k = chance(50) ? 0 : within(1, 2); k > 0; k--) form[1 + below(lines)] = instruction()
}

function add_name(sort, name) {
    known[name] = 1
    total++
    names[sort] = names[sort] " " name
}

function new_name(length_left, name) {
    do {
        name = ""
        for (length_left = chance(10) ? 8 : within(1, 4); length_left > 0; length_left--) name = name substr("abcdefghijklmnopqrstuvwxyz", 1 + below(26), 1)
    } while ((name in known) || index(RESERVED, " " name " "))
    return name
}

function name_locals(sorts, k, j) {
    split(SORTS, sorts, " ")
    for (k = 1; k <= 4; k++)
        for (j = chance(5) ? 12 : chance(85) ? within(1, 3) : 0; j > 0 && total < MAX_LOCALS; j--) add_name(sorts[k], new_name())
}

function number_lines(k, room) {
    lines = chance(4) ? within(MAX_LINES - 5, MAX_LINES) : chance(25) ? within(10, 60) : within(1, 9)
    for (k = 1; k <= lines; k++) {
        room = int((MAX_LINE - number[k - 1]) / (lines - k + 1))
        number[k] = number[k - 1] + within(1, room > 2 && chance(90) ? 2 : room)
    }
}

# Any forms at all; or a scan that leads to a return, and behind it an update that writes and finishes.
function fill_lines(k, half) {
    for (k = 1; k <= lines; k++) form[k] = instruction()
    half = 1 + int(lines / 2)
    scan = number[chance(80) ? 1 : within(1, lines)]
    update = number[chance(80) ? half : within(1, lines)]
    if (chance(25)) return
    for (k = 1; k <= lines; k++) while (form[k] ~ /goto|return|finish/ && chance(80)) form[k] = instruction()
    if (half > 1 && names["view"]) form[half - 1] = "return " one("view")
    if (half < lines && chance(50)) form[half] = "call " scan
    if (half < lines && (kind == "multi" || names["view"] && (kind == "seq" || names["row"]))) form[lines - 1] = "put r[" owner() "] = " tuple()
    form[lines] = "finish"
}

function one(sort) { return among(names[sort]) }

function target() { return number[1 + below(lines)] }

function owner() { return kind == "multi" ? "word" : "me" }

# An instruction of a form that the kind has and whose names there are.
function instruction(k) {
    k = below(24)
    if (k < 2 && names["scalar"]) return "let " one("scalar") " = " expression("")
    if (k < 4 && names["row"]) return "let " one("row") "[" place_of("") "] = " expression("")
    if (k < 6 && names["words"]) return "get " one("words") "[" place_of("") "] = r[" place_of("") "]"
    if (k == 6 && names["scalar"] && kind != "seq") return "bit " one("scalar") " = " bank() "[" place_of("") "," place_of("") "]"
    if (k == 7 && names["view"] && kind == "multi") return "look " one("view") " = v[" place_of("") "]"
    if (k < 10 && (kind == "multi" || names["view"] && (kind == "seq" || names["row"]))) return "put r[" (chance(80) ? owner() : place_of("")) "] = " tuple()
    if (k == 10 && kind != "seq") return "put " bank() "[" (chance(80) ? "me" : place_of("")) "," place_of("") "] = " (chance(50) ? "not " term("") : expression(""))
    if (k == 11 && names["view"] && kind == "multi") return "put v[" (chance(80) ? "me" : place_of("")) "] = " one("view")
    if (k == 12 && names["view"] && names["words"]) return "view " one("view") " = data(" one("words") ")"
    if (k == 13 && names["view"] && names["words"] && kind != "multi") return "view " one("view") " = view(" one("words") "[" place_of("") "])"
    if (k < 16 && names["row"]) return "each " range() ": " one("row") "[@] = " expression("@") (chance(50) ? " where " condition("@") : "")
    if (k == 16 && names["scalar"]) return "first " one("scalar") " " range() ": " condition("@") " goto " target()
    if (k == 17 && names["scalar"]) return "next " one("scalar") " " range() " goto " target()
    if (k == 18) return "if " condition("") " goto " target()
    if (k == 19) return "if all " range() ": " condition("@") " goto " target()
    if (k == 20) return "goto " target()
    if (k == 21) return "call " target()
    if (k == 22 && names["view"]) return "return " one("view")
    if (k == 23) return "finish"
    return instruction()
}

function bank() { return kind == "multi" ? among("q p") : "q" }

function range() { return among("n w") }

function tuple() {
    if (kind == "seq") return "(" expression("") ", " expression("") ", " one("view") ")"
    if (kind == "bit") return "(" expression("") ", " one("row") ", " (chance(70) ? "not " term("") : expression("")) ", " one("view") ")"
    return "(" expression("") ", " expression("") ", " (chance(70) ? "not " term("") : expression("")) ")"
}

# An index, mostly one that is a place; 'at' is '@' where a quantifier is about it.
function place_of(at) {
    if (at != "" && chance(60)) return "@"
    if (names["scalar"] && chance(12)) return one("scalar")
    return chance(90) ? among("me me me 1 1 n w") : among("word word " LIMITS)
}

function term(at) {
    if (names["row"] && chance(30)) return one("row") "[" place_of(at) "]"
    if (names["words"] && chance(30)) return field(at)
    if (names["scalar"] && chance(20)) return one("scalar")
    return chance(30) ? among("arg arg word 0 1 " LIMITS) : place_of(at)
}

function field(at) {
    if (kind == "bit" && chance(40)) return "hand(" one("words") "[" place_of(at) "]," place_of(at) ")"
    return among(kind == "seq" ? "seq data" : kind == "bit" ? "toggle data" : "toggle id data") "(" one("words") "[" place_of(at) "])"
}

function expression(at) {
    if (chance(25)) return "not " term(at)
    return term(at) (chance(25) ? " + " term(at) : "")
}

function condition(at, text, join, k) {
    join = among("and or")
    text = comparison(at)
    for (k = chance(40) ? within(1, 3) : 0; k > 0; k--) text = text " " join " " comparison(at)
    return text
}

function comparison(at) { return term(at) " " among("= != <") " " term(at) }

function write_listing(sorts, k) {
    split(SORTS, sorts, " ")
    both("kind " kind, 0)
    for (k = 1; k <= 4; k++) both(sorts[k] names[sorts[k]], 0)
    both("scan " scan, 0)
    both("update " update, 0)
    for (k = 1; k <= lines; k++) both(number[k] ": " form[k], 1)
}

# Writes a line in canonical text and as one may type it. The comment of a numbered line is kept.
function both(text, is_numbered, said) {
    said = chance(15) ? comment() : ""
    print text (is_numbered && said != "" ? " " said : "") >(into "/canonical")
    if (chance(10)) print (chance(50) ? comment() : space(1)) >(into "/text")
    print loose(text) said >(into "/text")
}

function comment(text) {
    text = among("# #% #x #_y #1:_goto_1~ ##~~_# #a<b #~")
    gsub("_", chance(50) ? " " : "\t", text)
    gsub("~", "\r", text)
    return text
}

# A line with other spaces about its tokens.
function loose(text, out, token, was_word, is_word) {
    out = space(0)
    while (match(text, /[a-z]+|[0-9]+|!=|[^ ]/)) {
        token = substr(text, RSTART, RLENGTH)
        text = substr(text, RSTART + RLENGTH)
        is_word = token ~ /[a-z0-9]/
        out = out space(was_word && is_word) token
        was_word = is_word
    }
    return out space(0)
}

# Spaces, at least so many.
function space(least, text) {
    while (length(text) < least || chance(15)) text = text (chance(80) ? " " : chance(50) ? "\t" : "\r")
    return text
}

# Schedules.

function make_schedule(k, longest) {
    n = chance(10) ? within(1, MAX_PROCESSES) : within(1, 3)
    w = kind == "multi" ? (chance(10) ? within(1, MAX_PROCESSES) : within(1, 3)) : n
    longest = chance(40) ? 1 : chance(97) ? within(2, 60) : 3000
    for (k = within(0, longest == 1 ? 450 : 30); k > 0; k--) add_item(longest)
}

function add_item(longest, i, k) {
    i = within(1, n)
    if (chance(longest == 1 ? 6 : 35)) return add(i (chance(50) ? " scan" : update_of(i)), 1)
    if (below(longest == 1 ? 600 : 60) == 0) return add(i " crash", 1)
    k = within(1, longest)
    add(i, k)
}

function update_of(i) { return " update " (chance(5) ? among(LIMITS) : kind == "multi" ? within(1, w) : i) " " (chance(80) ? within(1, 9) : among(LIMITS)) }

# So many items of one form: a line of the schedule.
function add(text, count) {
    shown[++shows] = text (count > 1 ? "*" count : "")
    for (; count > 0; count--) item[++items] = text
}

function write_schedule(k) {
    items += 0
    print "shape " n " " w >(into "/cut")
    place = chance(20) ? items : within(0, items)
    for (k = 1; k <= place; k++) print item[k] >(into "/cut")
    print loose("shape " n " " w) >(into "/schedule")
    for (k = 1; k <= shows; k++) print (chance(20) ? loose(shown[k]) : shown[k]) >(into "/schedule")
}

# Debugger commands.

function write_commands(k, text) {
    for (k = chance(5) ? MAX_MARKS + 10 : within(0, 20); k > 0; k--) {
        text = command()
        print text >(into "/said")
        print (chance(20) ? loose(text) : text) >(into "/commands")
    }
    print "goto " place >(into "/said")
    print "goto " place >(into "/commands")
}

function command(k) {
    k = below(16)
    if (k < 2) return "step " count_of()
    if (k < 4) return "back " count_of()
    if (k == 4) return "goto " (chance(80) ? within(0, items) : count_of())
    if (k < 7) return "run"
    if (k == 7) return "rrun"
    if (k == 8) return among("break break break clear") " " process() " " (chance(90) ? target() : among(LIMITS))
    if (k < 11) return among("watch watch unwatch") " " address()
    if (k == 11) return "show " address()
    if (k == 12) return "show " process()
    return among("values events where")
}

function count_of() { return chance(80) ? within(0, 30) : among(LIMITS) }

function process() { return chance(90) ? within(1, n) : among(LIMITS) }

function address() {
    if (chance(60)) return "r " (chance(90) ? within(1, w) : among(LIMITS))
    return chance(50) ? "v " process() : among("q p") " " process() " " process()
}
