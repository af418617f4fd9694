# Completion of snaphunt for bash: source this file, or put it into a folder of bash-completion under the name snaphunt.
# Where nothing is offered, bash offers the names of files.
_snaphunt() {
    local word=${COMP_WORDS[COMP_CWORD]} before=${COMP_WORDS[COMP_CWORD - 1]} offered='' front=''
    if [ "$word" = "=" ]; then
        word=
    elif [ "$before" = "=" ]; then
        before=${COMP_WORDS[COMP_CWORD - 2]}
    fi
    case $before,$word in
        --shipped,*) offered="seq bit multi" ;;
        --pace,*) offered="mixed bursts interruptions rounds witnesses duels coins" ;;
        --fails,*)
            offered="linearizable point trap steps"
            front=${word%"${word##*,}"}
            ;;
        *,-*)
            offered="--shipped --fails --steps --collects --runs --seed --processes --words --pace --depth --turns --crash --repeat"
            offered="$offered --explain -h --help -V --version"
            ;;
    esac
    mapfile -t COMPREPLY < <(compgen -P "$front" -W "$offered" -- "${word#"$front"}")
}
complete -o default -o bashdefault -F _snaphunt snaphunt
