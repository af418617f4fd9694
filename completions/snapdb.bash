# Completion of snapdb for bash: source this file, or put it into a folder of bash-completion under the name snapdb.
# Where nothing is offered, bash offers the names of files.
_snapdb() {
    local word=${COMP_WORDS[COMP_CWORD]} before=${COMP_WORDS[COMP_CWORD - 1]} offered=
    if [ "$word" = "=" ]; then
        word=
    elif [ "$before" = "=" ]; then
        before=${COMP_WORDS[COMP_CWORD - 2]}
    fi
    case $before,$word in
        --shipped,*) offered="seq bit multi" ;;
        *,-*) offered="--shipped --explain -h --help -V --version" ;;
    esac
    mapfile -t COMPREPLY < <(compgen -W "$offered" -- "$word")
}
complete -o default -o bashdefault -F _snapdb snapdb
