# shellcheck shell=bash disable=SC2154,SC2034 # what its caller sets, and what it sets for its caller
# Sourced by tests of examples/DRIVER, after scripts/checks.sh: `driver` is its name, and `top` the repository.
over=0

# build NAME [FLAG ..]: builds the driver with these flags of the compiler, in its own folder in `scratch`.
build() {
    local name=$1
    shift
    mkdir -p "$scratch/$name"
    [ "$name" = plain ] || cp "$scratch/plain/libfintaqush.a" "$scratch/$name/"
    check "$driver is built: $name" "$top/examples/$driver/build.sh" "$scratch/$name" "$@"
    [ -e "$scratch/$name/$driver" ]
}

# refuses OPTIONS: checks that the driver rejects these options, with its usage and status 64
refuses() {
    local status=0
    # shellcheck disable=SC2086
    timeout 300 "$scratch/plain/$driver" $1 > "$scratch/run" 2>&1 || status=$?
    check "'$1' is refused" [ "$status $(grep -c '^usage: ' "$scratch/run")" = '64 1' ]
}

# way NAME [OPTION ..]: runs this build with these options; each line `ok` or `WRONG` that it prints counts as a test.
way() {
    local name=$1 status=0
    shift
    [ "$over" = 0 ] || return 0
    BUILT=$scratch/$name timeout -k 20 1h "$top/examples/$driver/run.sh" "$@" > "$scratch/run" 2>&1 || status=$?
    count_run "$status" "$name with '$*'"
}

# as_printed COMMAND: runs a command of a page, in a fresh clone with an empty home folder, and without variables that the page
# doesn't set.
as_printed() {
    local fetched=.cache/fintaqush/linux-image
    if [ ! -d "$scratch/fresh" ]; then
        "$top/scripts/fresh_clone.sh" "$scratch/fresh" || return
        # what `scripts/test-packages.sh --fetch` has downloaded isn't downloaded again
        mkdir -p "$scratch/fresh/home/${fetched%/*}"
        [ ! -d ~/"$fetched" ] || ln -s ~/"$fetched" "$scratch/fresh/home/$fetched"
    fi
    (cd "$scratch/fresh/fintaqush" && env -i PATH="$PATH" TERM="${TERM:-dumb}" HOME="$scratch/fresh/home" timeout -k 20 1h bash -c "$1") > "$scratch/run" 2>&1
}

# printed COMMAND: runs the driver as a page shows it; each line `ok` or `WRONG` that it prints counts as a test.
printed() {
    local status=0
    [ "$over" = 0 ] || return 0
    as_printed "$1" || status=$?
    count_run "$status" "'$1' as printed"
}

# printed_table COMMAND COUNT PATTERN: checks that the command succeeds, and that this many lines of its output match the
# pattern: so no row is of a load that failed.
printed_table() {
    local status=0
    [ "$over" = 0 ] || return 0
    as_printed "$1" || status=$?
    check "$1 as printed: $(cat "$scratch/run")" [ "$status $(grep -c -x -E -e "$3" "$scratch/run")" = "0 $2" ]
}

# count_run STATUS NAME: counts the lines `ok` and `WRONG` of a run as tests; a run with status 69 skips the driver's other
# tests.
count_run() {
    local status=$1 name=$2
    if [ "$status" = 69 ]; then
        cat "$scratch/run"
        skip 'the driver on a device' "$(sed -n 's/^[a-z]*: this needs \([^ ,]*\).*/\1/p' "$scratch/run" | tail -n 1)"
        over=1
        return
    fi
    passed=$((passed + $(grep -c '^ok: ' "$scratch/run")))
    failed=$((failed + $(grep -c '^WRONG: ' "$scratch/run")))
    if [ "$status" != 0 ]; then
        grep -q '^WRONG: ' "$scratch/run" || failed=$((failed + 1))
        echo "$driver: $name, status $status"
        sed 's/^/    /' "$scratch/run"
    fi
}

# mistake NAME WRONG FILE OLD NEW [OLD NEW ..]: checks that the driver, with these changes of a file, prints a line with WRONG
# last. Each OLD occurs once in the file.
mistake() {
    local name=$1 wrong=$2 status=0
    [ "$over" = 0 ] || return 0
    if ! plant "${@:3}"; then
        check "$name: planted" false
        return
    fi
    BUILT=$scratch/mistake/built PATIENCE=15 timeout -k 20 1h "$scratch/mistake/examples/$driver/run.sh" > "$scratch/run" 2>&1 || status=$?
    check "$name is found: $(grep '^WRONG: ' "$scratch/run")" [ "$status $(grep -c -x -e "WRONG: $wrong" "$scratch/run")" = '1 1' ]
}

plant() {
    local file=$scratch/mistake/examples/$1 text
    shift
    rm -rf "$scratch/mistake"
    mkdir -p "$scratch/mistake/examples" "$scratch/mistake/built"
    cp -r "$top"/examples/{tap,driver,"$driver"} "$scratch/mistake/examples" && ln -s "$top/include" "$scratch/mistake"
    cp "$scratch/plain/libfintaqush.a" "$scratch/mistake/built"
    while [ $# != 0 ]; do
        [ "$(grep -c -F -e "$1" "$file")" = 1 ] || return 1
        text=$(< "$file")
        printf '%s\n' "${text/"$1"/"$2"}" > "$file"
        shift 2
    done
    "$scratch/mistake/examples/$driver/build.sh" "$scratch/mistake/built" > "$scratch/run" 2>&1
}

# mistakes: planted in code that several drivers share
mistakes() {
    mistake 'a mask that comes too late' '3000 pings are answered' driver/driver.h 'case FQ_TODO_UNMASK: device->unmask(device); break;' \
        'case FQ_TODO_UNMASK: device->unmask(device), device->mask(device); break;'
    mistake 'a completion told twice' '3000 pings are answered' driver/driver.h 'must("done", ' \
        'must("once", fq_tx_done(&device->limit, count, now_ms()), FQ_OK);
    must("done", '
    # on a busy machine each ping may find the driver awake
    mistake 'an interrupt that is not reported' '\(3000 pings are answered\|both ways under load\)' driver/driver.h 'device->interrupts++, fq_word_raise' \
        '++device->interrupts % 64 && fq_word_raise'
}
