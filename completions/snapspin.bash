# Completion of snapspin for bash: source this file, or put it into a folder of bash-completion under the name snapspin.
# Where nothing is offered, bash offers the names of files.
_snapspin() {
    local word=${COMP_WORDS[COMP_CWORD]} before=${COMP_WORDS[COMP_CWORD - 1]} offered=
    if [ "$word" = "=" ]; then
        word=
    elif [ "$before" = "=" ]; then
        before=${COMP_WORDS[COMP_CWORD - 2]}
    fi
    case $before,$word in
        --shipped,*) offered="seq bit multi" ;;
        *,-*) offered="--shipped --crashes --memory --minutes --depth --explain -h --help -V --version" ;;
    esac
    mapfile -t COMPREPLY < <(compgen -W "$offered" -- "$word")
}
complete -o default -o bashdefault -F _snapspin snapspin
