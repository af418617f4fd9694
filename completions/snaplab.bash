# Completion of snaplab for bash: source this file, or put it into a folder of bash-completion under the name snaplab.
# Where nothing is offered, as behind '<', bash offers the names of files.
_snaplab() {
    local word=${COMP_WORDS[COMP_CWORD]} before=${COMP_WORDS[COMP_CWORD - 1]}
    local commands="check lint assemble list upgrade run trace debug audit certify judge batch survey live promela help"
    local offered="--explain -h --help"
    if [ "$word" = "=" ]; then
        word=
    elif [ "$before" = "=" ]; then
        before=${COMP_WORDS[COMP_CWORD - 2]}
    fi
    case ${COMP_WORDS[1]} in
        help) offered= ;;
        run | trace | debug | audit | certify | batch) offered="--shipped $offered" ;;
        judge) offered="--shipped --history --most $offered" ;;
        survey) offered="--shipped --strict $offered" ;;
        live) offered="--shipped --limit $offered" ;;
        promela) offered="--shipped --crashes $offered" ;;
    esac
    case $COMP_CWORD,${COMP_WORDS[1]} in
        1,*) offered="$commands --explain -h --help -V --version" ;;
        2,help) offered=$commands ;;
    esac
    case $before in
        *[\<\>]* | --limit | --most | --crashes) offered= ;;
        --shipped) offered="seq bit multi" ;;
    esac
    mapfile -t COMPREPLY < <(compgen -W "$offered" -- "$word")
}
complete -o default -o bashdefault -F _snaplab snaplab
