#!/usr/bin/env bash
# Sourced by tests, after scripts/checks.sh: the C tests and examples. The test sets `library`, the archive that they are linked with. For
# another processor it also sets `cross`, the prefix of the compilers' names, and `run`, the emulator's command and its arguments.
cross=
run=()
heap=-Wl,--wrap=malloc,--wrap=realloc,--wrap=free
steps=-Wl$(printf ',--wrap=fq_caller_%s' schedule schedule_prep hand hand_again take requeue complete complete_done end)
kinds=(limit instance ring transmit shared list any) # of random calls

# compile COMPILER SOURCE PROGRAM FLAG ..: compiles with all warnings as errors.
compile() {
    local compiler=$1 source=$2 program=$3 standard=-std=c11
    shift 3
    case $source in *.cpp) standard=-std=c++17 ;; esac
    "$cross$compiler" "$standard" -Wall -Wextra -Wshadow -Werror -pthread -I "$top/include" "$@" "$source" "${library:?}" -o "$program"
}

# compared STDOUT COMMAND ..: checks that the command succeeds, and prints exactly this.
compared() {
    local wanted=$1
    shift
    timeout 1h "${run[@]}" "$@" > "$scratch/printed" && diff "$scratch/printed" "$wanted"
}

# compiler_of SOURCE
compiler_of() { case $1 in *.c) echo gcc ;; *) echo g++ ;; esac; }

# answered CALLS SEED KIND PROGRAM ..: makes this many random calls of a kind, and checks their results.
answered() {
    local calls=$1 seed=$2 kind=$3
    shift 3
    echo "$calls calls of $kind, each answered as it has to be" > "$scratch/answered"
    compared "$scratch/answered" "$@" "$kind" "$calls" "$seed"
}

ends_each_box() { timeout 1h "${run[@]}" "$@" > "$scratch/printed" && grep -qx '[0-9]* cases, and nothing is left' "$scratch/printed"; }

# try_examples COMPILER: compiles and runs the examples in its language.
try_examples() {
    local name source end=c
    [[ $1 != *++ ]] || end=cpp
    for source in "$top"/examples/c/*."$end"; do
        name=${source##*/}
        check "$1 compiles $name" compile "$1" "$source" "$scratch/$1-${name%.*}" -O2
        check "$1: $name" compared "$top/examples/c/${name%.*}.stdout" "$scratch/$1-${name%.*}"
    done
}

# try_each: the tests of tests.txt, and those that print no such line. NAME.line keeps the line, and NAME the program, for other runs.
try_each() {
    local source linked line name flags
    while read -r source linked line; do
        name=${source%.*}
        echo "$line" > "$scratch/$name.line"
        flags=(-O2)
        [ "$linked" = - ] || flags+=("${!linked}")
        check "$source compiles" compile "$(compiler_of "$source")" "$top/tests/c/$source" "$scratch/$name" "${flags[@]}"
        check "$source: $line" compared "$scratch/$name.line" "$scratch/$name"
    done < <(grep -v '^#' "$top/tests/c/tests.txt")
    check 'bursts in C++ compile' compile g++ "$top/tests/c/bursts.cpp" "$scratch/bursts" -O2
    check 'bursts in C++' "${run[@]}" "$scratch/bursts"
    check 'boxes.c compiles' compile gcc "$top/tests/c/boxes.c" "$scratch/boxes" -O2 "$heap"
    check 'no box is forgotten' ends_each_box "$scratch/boxes"
    check 'random calls compile' compile gcc "$top/tests/c/random.c" "$scratch/random" -O2 "$heap"
    echo 'no order hangs, and each mistake does' > "$scratch/orders.line"
    echo 'a driver never sleeps with work left' > "$scratch/driver.line"
    echo '70 rings of places, as the model' > "$scratch/places.line"
    for name in orders driver places; do check "$name.c compiles" compile gcc "$top/tests/c/$name.c" "$scratch/$name" -O2; done
}

# try_random CALLS SEED: so many calls of each kind, a tenth as many on each ring of places and orders of a driver's calls, and drivers, after
# try_each.
try_random() {
    local kind
    for kind in "${kinds[@]}"; do
        check "random calls: $kind, seed $2" answered "$1" "$2" "$kind" "$scratch/random"
    done
    check "rings of places, seed $2" compared "$scratch/places.line" "$scratch/places" "$(($1 / 10))" "$2"
    check "a driver in random orders, seed $2" compared "$scratch/orders.line" "$scratch/orders" "$(($1 / 10))" "$2"
    check "random calls of drivers, seed $2" compared "$scratch/driver.line" "$scratch/driver" "$2"
}
