#compdef fintaqush
# Completion of fintaqush for zsh, by `fintaqush completion zsh`.
_fintaqush() {
    local -a subcommands
    subcommands=(
@NAMES@
    )
    if (( CURRENT == 2 )); then
        _describe -t subcommands subcommand subcommands
        return
    fi
    shift words
    (( CURRENT-- ))
    case $words[1] in
@WORDS@
    esac
}
if [ "$funcstack[1]" = _fintaqush ]; then
    _fintaqush "$@"
else
    compdef _fintaqush fintaqush
fi
