# Completion of the command zagvirk for bash. Read it with `source`, or put it as zagvirk into
# /usr/share/bash-completion/completions. The tests of rust/command compare it with the help texts.

_zagvirk() {
    local current=${COMP_WORDS[COMP_CWORD]} before=${COMP_WORDS[COMP_CWORD - 1]}
    local commands="check words run check-run page why common join show dot help"
    local command=${COMP_WORDS[1]} options= index
    COMPREPLY=()
    if [ "$COMP_CWORD" -eq 1 ]; then
        mapfile -t COMPREPLY < <(compgen -W "$commands -h --help -V --version" -- "$current")
        return
    fi
    case $command in
    check) options="-h --help" ;;
    words) options="--letters --yes --no --count -h --help" ;;
    run) options="--raw -h --help" ;;
    check-run) options="--copies -h --help" ;;
    page) options="-h --help" ;;
    why) options="--table -h --help" ;;
    common) options="--raw --letters -h --help" ;;
    join) options="-o --output -h --help" ;;
    show) options="--letters -h --help" ;;
    dot) options="-o --output --letters -h --help" ;;
    help)
        mapfile -t COMPREPLY < <(compgen -W "$commands" -- "$current")
        return
        ;;
    *) return ;;
    esac
    # Behind -- there are no options, and behind -o stands a file.
    for ((index = 2; index < COMP_CWORD; index++)); do
        if [ "${COMP_WORDS[index]}" = "--" ]; then options=; fi
    done
    case $before in
    -o | --output) options= ;;
    esac
    case $current in
    -*) mapfile -t COMPREPLY < <(compgen -W "$options" -- "$current") ;;
    *) mapfile -t COMPREPLY < <(compgen -f -- "$current") ;;
    esac
}

complete -o filenames -F _zagvirk zagvirk
