# Completions of bash for coap-proxyd(8).

# Completes a value of an option, if there is a choice for it; `value` is what is typed of it.
_coap_proxyd_value() {
    case $1 in
        --config | --record | --stats-file)
            compopt -o filenames
            mapfile -t COMPREPLY < <(compgen -f -- "$value")
            ;;
        -A) mapfile -t COMPREPLY < <(compgen -W "0.0.0.0 127.0.0.1 :: ::1" -- "$value") ;;
        -p) mapfile -t COMPREPLY < <(compgen -W "5683" -- "$value") ;;
        --stats) mapfile -t COMPREPLY < <(compgen -W "1 60 3600" -- "$value") ;;
        -P | --map | --id | --salt | --turns | --record-bytes | --receive-buffer) ;;
        *) return 1 ;;
    esac
}

_coap_proxyd() {
    local value=${COMP_WORDS[COMP_CWORD]} before=${COMP_WORDS[COMP_CWORD - 1]}
    # An equals sign is a word of its own to bash.
    [[ $value == "=" ]] && value=
    [[ $before == "=" ]] && before=${COMP_WORDS[COMP_CWORD - 2]}
    COMPREPLY=()
    _coap_proxyd_value "$before" && return
    mapfile -t COMPREPLY < <(compgen -W "-A -p -P --config --map --replay --id --salt --turns --record --explain --stats
        --stats-file --log --record-bytes --receive-buffer --help --version" -- "$value")
}

complete -F _coap_proxyd coap-proxyd
