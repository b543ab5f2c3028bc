# The completion of dbus-wire's commands and options, for bash.

# The last part of a match rule, KEY=VALUE,KEY=VALUE: a key that the rule does not have yet, or its value. Bash replaces
# what follows the last `=`, and within quotation marks the whole rule, which is not completed.
_dbus_wire_rule() {
    local rule=${COMP_LINE:0:COMP_POINT} key keys=
    rule=${rule##*[[:space:]]}
    [[ $rule == [\"\']* ]] && return
    local last=${rule##*,}
    local front=${rule%"$last"}
    if [[ $last == *=* ]]; then
        [[ $last == type=* ]] && COMPREPLY=($(compgen -W 'signal method_call method_return error' -- "${last#*=}"))
        return
    fi
    for key in type sender interface member path path_namespace destination arg0 arg0path arg0namespace; do
        [[ ,$front == *,$key=* ]] || keys+=" $key="
    done
    compopt -o nospace
    COMPREPLY=($(compgen -P "${front##*=}" -W "$keys" -- "$last"))
}

_dbus_wire() {
    local word=${COMP_WORDS[COMP_CWORD]} option=${COMP_WORDS[COMP_CWORD-1]}
    local commands='show json list check count calls swap filter encode handshake help'
    local options= values= is_ruled=
    COMPREPLY=()
    # A redirection names a file, which bash completes.
    [[ $option == [\<\>]* ]] && return
    if ((COMP_CWORD == 1)); then
        COMPREPLY=($(compgen -W "$commands -h --help -V --version" -- "$word"))
        return
    fi
    # Bash gives `--to=l` as the words `--to`, `=` and `l`.
    if [[ $word == = ]]; then
        word=
    elif [[ $option == = ]]; then
        option=${COMP_WORDS[COMP_CWORD-2]}
    fi
    # bench/options.py writes the rows of both tables. The value of most is free.
    case $option in
        --owner | --resync-window | --skip | --limit | --max-message | --max-array | --max-depth | --width | --slower | --max-line) values=' ' ;;
        --handshake | --side) values='client server' ;;
        --fds) values='any below-count' ;;
        --to) values='l B' ;;
    esac
    if [[ -n $values ]]; then
        COMPREPLY=($(compgen -W "$values" -- "$word"))
        return
    fi
    local command=${COMP_WORDS[1]}
    case $command in
        show) is_ruled=1 options='--time --escape --invert --may-match --as-bus --owner --learn-owners --json --explain --keep-going --resync --resync-window --skip --limit --check-rest --handshake --max-message --max-array --max-depth --fds -h --help' ;;
        json) is_ruled=1 options='--no-time --safe-integers --invert --may-match --as-bus --owner --learn-owners --json --explain --keep-going --resync --resync-window --skip --limit --check-rest --handshake --max-message --max-array --max-depth --fds -h --help' ;;
        list) is_ruled=1 options='--width --invert --may-match --as-bus --owner --learn-owners --json --explain --keep-going --resync --resync-window --skip --limit --check-rest --handshake --max-message --max-array --max-depth --fds -h --help' ;;
        check) options='--json --explain --keep-going --resync --resync-window --handshake --max-message --max-array --max-depth --fds -h --help' ;;
        count) is_ruled=1 options='--invert --may-match --as-bus --owner --learn-owners --json --explain --keep-going --resync --resync-window --handshake --max-message --max-array --max-depth --fds -h --help' ;;
        calls) options='--members --unanswered --errors --slower --json --explain --keep-going --resync --resync-window --handshake --max-message --max-array --max-depth --fds -h --help' ;;
        swap) is_ruled=1 options='--to --invert --may-match --as-bus --owner --learn-owners --raw --json --explain --handshake --max-message --max-array --max-depth --fds -h --help' ;;
        filter) is_ruled=1 options='--invert --may-match --as-bus --owner --learn-owners --raw --json --explain --keep-going --resync --resync-window --skip --limit --check-rest --handshake --max-message --max-array --max-depth --fds -h --help' ;;
        encode) options='--to --safe-integers --explain --keep-going --max-line --max-message --max-array --max-depth --fds -h --help' ;;
        handshake) options='--side -h --help' ;;
        help)
            ((COMP_CWORD == 2)) && options=$commands
            ;;
    esac
    if [[ -n $is_ruled && $word != -* ]]; then
        _dbus_wire_rule
    else
        COMPREPLY=($(compgen -W "$options" -- "$word"))
    fi
}

complete -o default -F _dbus_wire dbus-wire
