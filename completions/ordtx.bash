# Completions of ordtx for bash.

_ordtx() {
    local current=${COMP_WORDS[COMP_CWORD]} command='' file='' option='' options='' words='' word
    # What comes before the word: the command, the file, and the option whose value the word is.
    for word in "${COMP_WORDS[@]:1:COMP_CWORD-1}"; do
        if [[ $word == = ]]; then
            continue
        elif [[ -n $option ]]; then
            option=''
        elif [[ $word == --workers || $word == --cut || $word == --into ]]; then
            option=$word
        elif [[ $word != -* && -z $command ]]; then
            command=$word
        elif [[ $word != -* ]]; then
            file=$word
        fi
    done
    [[ $current == = ]] && current=''

    COMPREPLY=()
    case $command in
        '') options='--help --version -h -V' words='run serial carry check locate help' ;;
        run) options='--workers --cut --audit --why --progress --help --version -h -V' ;;
        carry) options='--workers --into --help --version -h -V' ;;
        serial | check) options='--workers --help --version -h -V' ;;
        locate) options='--help --version -h -V' ;;
        help) words='run serial carry check locate help' ;;
    esac
    if [[ $option == --workers ]]; then
        words='1 2 4 8 16 32 64'
    elif [[ $option == --cut ]]; then
        words='1 4 16 64 256 1000'
    elif [[ $option != --into && $current == -* ]]; then
        words=$options
    elif [[ $option != --into && -n $file ]]; then
        words=''
    elif [[ $command == run || $command == serial || $command == carry || $command == check || $command == locate ]]; then
        compopt -o filenames 2> /dev/null
        mapfile -t COMPREPLY < <(compgen -f -- "$current")
        return
    fi
    mapfile -t COMPREPLY < <(compgen -W "$words" -- "$current")
}

complete -F _ordtx ordtx
