# Completion of fintaqush for bash, by `fintaqush completion bash`.
_fintaqush() {
    local current=${COMP_WORDS[COMP_CWORD]} before=${COMP_WORDS[COMP_CWORD-1]} options='' values=''
    COMPREPLY=()
    case ${COMP_WORDS[1]} in
@WORDS@
    esac
    case ${COMP_WORDS[1]}$before in
@VALUES@
    esac
    if [ "$COMP_CWORD" = 1 ]; then
        values='@NAMES@ --help --version'
    elif [ -z "$values" ]; then
        case $current in -*) values=$options ;; esac
    fi
    # shellcheck disable=SC2207 # words without spaces
    [ -z "$values" ] || COMPREPLY=($(compgen -W "$values" -- "$current"))
}
complete -o default -F _fintaqush fintaqush ./fintaqush
