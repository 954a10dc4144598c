#!/usr/bin/env bash
# scripts/take.sh NAME FOLDER: copies a library of crates.txt, with all of this repository's crates below it, into the
# repository of Rattle crates at FOLDER: `src/`, `specs/` and `proofs/` of each, and its line of crates.txt. A crate or a line
# that is there already, exactly as here, stays; if one of these names is there with anything else, nothing is written. Standard
# output has the crates that were copied, lowest first. Standard error says which handles the repository has to allow. Exit
# status: 0 done; 64 the arguments are wrong; 65 something else is there; 73 it can't be written there.
set -euo pipefail
unset CDPATH
top=$(dirname "$(dirname "$(readlink -f "${BASH_SOURCE[0]}")")")
. "$top/scripts/arguments.sh"
parts=(src specs proofs)

# read_lines FILE ARRAY: reads the line of each crate that the file lists.
read_lines() {
    local -n into=$2
    local line words
    while IFS= read -r line || [ -n "$line" ]; do
        line=${line%%#*}
        [[ $line == *:* ]] || continue
        read -ra words <<< "${line%%:*}: ${line#*:}"
        # shellcheck disable=SC2034 # what it names is read
        into[${words[0]%:}]="${words[*]}"
    done < "$1"
}

# visit NAME: appends to `all` the crates of this repository below this one, lowest first, and then the crate.
visit() {
    local need
    [ -n "${here[$1]:-}" ] && [[ " ${all[*]} " != *" $1 "* ]] || return 0
    for need in ${here[$1]#*:}; do visit "$need"; done
    all+=("$1")
}

# is_same NAME: returns whether the crate there is the same as this one.
is_same() {
    local part
    for part in "${parts[@]}"; do
        if [ -e "$top/crates/$1/$part" ] || [ -e "$home/$1/$part" ]; then
            diff -r "$top/crates/$1/$part" "$home/$1/$part" > /dev/null 2>&1 || return 1
        fi
    done
}

# removes what was copied, unless all of it was
undo() {
    local name
    rm -rf "$scratch"
    for name in "${put[@]}"; do rm -rf "${home:?}/$name"; done
}

operands 2 2 "$@"
name=$1
[ -d "$2" ] || refuse "FOLDER is '$2', which is no folder"
to=$(readlink -f "$2")
[ "$to" != "$top" ] || refuse 'FOLDER is this repository'
declare -A here=() there=()
read_lines "$top/crates.txt" here
if [ -z "${here[$name]:-}" ] || [ ! -e "$top/crates/$name/src/lib.rt" ] || [[ ${here[$name]%%:*} == *' staticlib' ]]; then
    refuse "NAME is '$name', which is no library of crates.txt"
fi
[ ! -e "$to/crates.txt" ] || read_lines "$to/crates.txt" there
# a repository without the folder crates/ has its crates next to its crates.txt
home=$to/crates
[ -d "$home" ] || [ "${#there[@]}" = 0 ] || home=$to

all=()
visit "$name"
new=()   # the crates that aren't there
lines=() # those whose lines aren't
for it in "${all[@]}"; do
    if [ -e "$home/$it" ]; then
        is_same "$it" || stop 65 "$home/$it is there, and is another crate: nothing was taken"
    else
        new+=("$it")
    fi
    if [ -n "${there[$it]:-}" ]; then
        [ "${there[$it]}" = "${here[$it]}" ] || stop 65 "$to/crates.txt has '${there[$it]}', and not '${here[$it]}': nothing was taken"
    else
        lines+=("$it")
    fi
done

scratch=$(mktemp -d -p "$to" .take.XXXXXX 2> /dev/null) || stop 73 "$to can't be written to"
put=()
trap undo EXIT
trap 'exit 130' INT TERM HUP
for it in "${new[@]}"; do
    mkdir "$scratch/$it"
    for part in "${parts[@]}"; do
        [ ! -e "$top/crates/$it/$part" ] || cp -R "$top/crates/$it/$part" "$scratch/$it/" || stop 73 "$to can't be written to"
    done
done
{
    # the last line may lack a line end
    [ ! -e "$to/crates.txt" ] || awk 1 "$to/crates.txt"
    for it in "${lines[@]}"; do echo "${here[$it]}"; done
} > "$scratch/crates.txt" || stop 73 "$to can't be written to"
mkdir -p "$home" 2> /dev/null || stop 73 "$home can't be made"
for it in "${new[@]}"; do
    put+=("$it")
    mv -T "$scratch/$it" "$home/$it" || stop 73 "$home can't be written to"
done
if [ "${#lines[@]}" != 0 ]; then
    [ ! -e "$to/crates.txt" ] || chmod --reference="$to/crates.txt" "$scratch/crates.txt"
    mv "$scratch/crates.txt" "$to/crates.txt" || stop 73 "$to/crates.txt can't be written"
fi
put=()
[ "${#new[@]}" = 0 ] || printf '%s\n' "${new[@]}"

handles=
for word in Threads Wait; do
    for it in "${all[@]}"; do
        if grep -rqw "^[^/]*$word" "$top/crates/$it/src"; then
            handles+=", $word"
            break
        fi
    done
done
handles=${handles#, }
for word in ${handles//,/}; do
    grep -qsw "$word" "$to/HANDLES" || { echo "take: $to/HANDLES has to allow: $handles" >&2; break; }
done
