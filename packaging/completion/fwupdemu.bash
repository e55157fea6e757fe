# Completion of fwupdemu's words for bash.

_fwupdemu() {
    local current=${COMP_WORDS[COMP_CWORD]}
    COMPREPLY=()
    # Behind `<` and `>` stands a file.
    case ${COMP_WORDS[COMP_CWORD - 1]} in
    '<' | '>' | '>>' | '2>')
        mapfile -t COMPREPLY < <(compgen -f -- "$current")
        return
        ;;
    esac
    if [ "$COMP_CWORD" -eq 1 ]; then
        mapfile -t COMPREPLY < <(compgen -W 'run check remotes explain plan update ids make report' -- "$current")
        return
    fi
    case ${COMP_WORDS[1]} in
    make)
        case $current in
        -*) mapfile -t COMPREPLY < <(compgen -W '--clients' -- "$current") ;;
        esac
        ;;
    report)
        case $current in
        -*) mapfile -t COMPREPLY < <(compgen -W '--max' -- "$current") ;;
        esac
        ;;
    esac
}

complete -o default -F _fwupdemu fwupdemu
