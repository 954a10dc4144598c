# shellcheck shell=sh
# For scripts to source, before they change to another folder: with --help they print their head, which says how they are called. How they end
# with an error, and checks of their arguments. A wrong one is rejected with a message and status 64.

case ${1-} in
    -h | --help)
        awk 'NR > 1 && !/^#/ { exit } NR > 1 { sub(/^# ?/, ""); print }' "$0"
        exit 0
        ;;
esac

# stop STATUS TEXT ..: ends the script with this status and a message.
stop() {
    status=$1
    shift
    echo "$(basename "$0"): $*" >&2
    exit "$status"
}

refuse() { stop 64 "$@"; }

# at_most COUNT "$@": checks that the script has at most this many arguments.
at_most() {
    [ $(($# - 1)) -le "$1" ] || refuse "more than $1 argument(s): --help says how it is called"
}

# operands LEAST MOST "$@": checks the number of the arguments, and that none is empty or an option.
operands() {
    least=$1
    most=$2
    shift 2
    for operand in "$@"; do
        case $operand in
            -?*) refuse "there is no option '$(printf '%s' "$operand" | tr -c '[:print:]' '?')': --help says how it is called" ;;
            '') refuse 'an argument is empty: --help says how it is called' ;;
        esac
    done
    [ $# -ge "$least" ] && [ $# -le "$most" ] || refuse "it has $# arguments: --help says how it is called"
}

# is_count NAME VALUE: checks that the value is a whole number from 1 to 999999999.
is_count() {
    case $2 in
        '' | *[!0-9]* | ??????????*) refuse "$1 is '$2', and has to be a whole number from 1 to 999999999" ;;
        *[1-9]*) ;;
        *) refuse "$1 is 0, and has to be at least 1" ;;
    esac
}

# is_program NAME VALUE: checks that the value is an executable file.
is_program() {
    if [ ! -f "$2" ] || [ ! -x "$2" ]; then refuse "$1 is '$2', which is no program"; fi
}

# is_tool NAME: checks that this command is on PATH.
is_tool() {
    command -v "$1" > /dev/null || refuse "it needs $1, which isn't on PATH"
}

# for_target NAME: what follows is built for this target, arm64, or with an empty name for x86-64. Sets `cross`, with which the names of the
# compiler and its tools begin.
for_target() {
    case $1 in
        '') cross= ;;
        arm64) cross=aarch64-linux-gnu- ;;
        *) refuse "there is no target '$(printf '%s' "$1" | tr -c '[:print:]' '?')', only arm64" ;;
    esac
    [ -z "$cross" ] || command -v "${cross}gcc" > /dev/null ||
        stop 69 "there is no ${cross}gcc, which builds for $1 (Debian: gcc-aarch64-linux-gnu)"
    export FINTAQUSH_TARGET="$1"
}
