# The completion of menduvo for bash, as 'menduvo help --bash-completion' prints it. Where it offers nothing, bash offers files.
_menduvo() {
    local word=${COMP_WORDS[COMP_CWORD]} option=${COMP_WORDS[COMP_CWORD - 1]} commands options='' values='' i
    COMPREPLY=()
    commands='@COMMANDS@'
    # Bash takes the sign = of --option=value for a word.
    if [ "$word" = = ]; then
        word=
    elif [ "$option" = = ]; then
        option=${COMP_WORDS[COMP_CWORD - 2]}
    fi
    case ${COMP_WORDS[1]} in
        #OPTIONS
    esac
    case "${COMP_WORDS[1]} $option" in
        #VALUES
    esac
    # After -- there are no options.
    for ((i = 2; i < COMP_CWORD; i++)); do
        [ "${COMP_WORDS[i]}" != -- ] || return 0
    done
    if [ "$COMP_CWORD" = 1 ]; then
        values="$commands --help --version"
    elif [ "$COMP_CWORD ${COMP_WORDS[1]}" = '2 help' ]; then
        values="$commands $options"
    elif [ -z "$values" ] && [[ $word = -* ]]; then
        values=$options
    fi
    mapfile -t COMPREPLY < <(compgen -W "$values" -- "$word")
}
complete -o default -F _menduvo menduvo
