# Damages bytes, which 'od -An -v -tu1' has written, in so many ways; each line is the damaged bytes in octal, as printf takes them.
#   od -An -v -tu1 FILE | awk -v seed=N -v ways=N -v how=any|byte -f random.awk -f damage.awk
{ for (k = 1; k <= NF; k++) whole[++size] = $k }

END {
    seed_by(seed)
    for (k = 0; k < 256; k++) octal[k] = sprintf("\\%03o", k)
    split("0 00 1 16 17 999 1000 9999 10000 4294967296 18446744073709551615 18446744073709551616 99999999999999999999999", limits, " ")
    for (; ways > 0; ways--) print damaged()
}

function damaged(k, hurts, text) {
    for (k = 1; k <= size; k++) byte[k] = octal[whole[k]]
    begin = 1
    last = size
    if (size > 0) for (hurts = how == "byte" || chance(70) ? 1 : within(2, 4); hurts > 0; hurts--) hurt(within(1, size))
    for (k = begin; k <= last; k++) text = text byte[k]
    return text
}

# Hurts the bytes at a place: one of them, a line of them, a number, or all behind it or before it.
function hurt(place, k) {
    k = how == "byte" ? 0 : below(16)
    if (k < 3) byte[place] = chance(50) ? octal[below(256)] : changed_bit(whole[place])
    else if (k < 5) byte[place] = ""
    else if (k < 7) byte[place] = byte[place] byte[place]
    else if (k == 7) last = place - 1
    else if (k == 8) begin = place
    else if (k < 12) byte[place] = byte[place] special()
    else if (k < 14) replace_number(place)
    else replace_line(place, k == 14)
}

function changed_bit(value, bit) {
    bit = 2 ^ below(8)
    return octal[int(value / bit) % 2 ? value - bit : value + bit]
}

# A byte that has a meaning somewhere, or none anywhere.
function special() { return octal[among("0 9 10 10 13 32 35 37 42 44 48 57 58 61 64 91 93 97 127 128 255")] }

# The number that stands here, or next behind it, becomes one at some limit.
function replace_number(place, text, k) {
    while (place <= size && !is_digit(place)) place++
    while (is_digit(place + 1)) byte[place++] = ""
    text = limits[1 + below(12)]
    byte[place] = ""
    for (k = 1; k <= length(text); k++) byte[place] = byte[place] octal[48 + substr(text, k, 1)]
}

function is_digit(place) { return place >= 1 && place <= size && whole[place] >= 48 && whole[place] <= 57 }

# The line that stands here is dropped, or doubled.
function replace_line(place, is_dropped, first, k, text) {
    first = place
    while (first > 1 && whole[first - 1] != 10) first--
    for (k = first; k <= size && (k == first || whole[k - 1] != 10); k++) {
        text = text byte[k]
        if (is_dropped) byte[k] = ""
    }
    if (!is_dropped) byte[first] = text byte[first]
}
