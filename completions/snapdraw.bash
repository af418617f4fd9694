# Completion of snapdraw for bash: source this file, or put it into a folder of bash-completion under the name snapdraw.
# Where nothing is offered, bash offers the names of files.
_snapdraw() {
    local word=${COMP_WORDS[COMP_CWORD]} before=${COMP_WORDS[COMP_CWORD - 1]} offered=
    if [ "$word" = "=" ]; then
        word=
    elif [ "$before" = "=" ]; then
        before=${COMP_WORDS[COMP_CWORD - 2]}
    fi
    case $before,$word in
        --shipped,*) offered="seq bit multi" ;;
        *,-*) offered="--shipped --from --to --reads --explain -h --help -V --version" ;;
    esac
    mapfile -t COMPREPLY < <(compgen -W "$offered" -- "$word")
}
complete -o default -o bashdefault -F _snapdraw snapdraw
