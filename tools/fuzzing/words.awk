# Words of a command line that say nothing the program does.
#   awk -v seed=N -f random.awk -f words.awk
BEGIN {
    seed_by(seed)
    kind = among("seq bit multi")
    sub_shipped = among("run debug audit") " --shipped"
    split("|--shipped " kind "|" among("check assemble list") " --shipped " kind "|" sub_shipped "|" sub_shipped " " kind " --shipped " kind "|" \
        sub_shipped " " among("u b m Seq bits 0") "|" sub_shipped "=|" among("check run list") " " among("more . -x --limit -") "|" \
        among("walk Run runs -r --shipped=seq %"), words, "|")
    print words[1 + below(9)]
}
