#!/usr/bin/env bash
# tests/abi.sh: what is made of include/fintaqush.h is as scripts/abi.py makes it, and the crates export the header's calls and structs, with
# the same types; planted faults are found. What needs clang is skipped without it. The last line is `N passed, M failed, K skipped`.
. "$(dirname "$(readlink -f "$0")")/../scripts/checks.sh"
export PYTHONDONTWRITEBYTECODE=1

# copy_of_sources: a copy of what scripts/abi.py reads and writes.
copy_of_sources() {
    rm -rf "$scratch/copy"
    mkdir -p "$scratch/copy"
    (cd "$top" && cp -r --parents include scripts docs/C.md bindings/rust/src bindings/python/fintaqush crates/napi_c/src crates/napi_c/specs crates/c_handles/{src,specs} "$scratch/copy")
}

# reports FILE COMMAND ..: checks that the command fails with status 1, and names the file.
reports() {
    local file=$1 status=0
    shift
    "$@" > "$scratch/reported" 2>&1 || status=$?
    cat "$scratch/reported"
    [ "$status" = 1 ] && grep -q "$file" "$scratch/reported"
}

# A call that is added to the header is missing in each file that is made of it, and then in none.
new_call_is_written() {
    local file
    copy_of_sources
    sed -i 's|^FQ_NONNULL uint32_t fq_dql_limit(.*|&\nFQ_NONNULL uint32_t fq_dql_planted(const struct fq_dql *dql);|' "$scratch/copy/include/fintaqush.h"
    for file in scripts/abi.json scripts/exports.map bindings/rust/src/{sys/functions,calls}.rs bindings/python/fintaqush/_abi.py docs/C.md; do
        reports "$file" "$scratch/copy/scripts/abi.py" --check || return
    done
    "$scratch/copy/scripts/abi.py" && "$scratch/copy/scripts/abi.py" --check && grep -q fq_dql_planted "$scratch/copy/bindings/rust/src/sys/functions.rs"
}

# A status has its name and message on all sides.
new_message_is_written() {
    local file
    copy_of_sources
    sed -i 's|/\* put, push, send: there is no room \*/|/* put, push, send: it is full */|' "$scratch/copy/include/fintaqush.h"
    for file in crates/napi_c/src/names.rt crates/napi_c/specs/Names.antt crates/c_handles/src/status.rt bindings/rust/src/fault.rs; do
        reports "$file" "$scratch/copy/scripts/abi.py" --check || return
    done
}

wrong_header_is_refused() {
    copy_of_sources
    sed -i 's|^FQ_NONNULL uint32_t fq_dql_limit(|FQ_NONNULL uint33_t fq_dql_limit(|' "$scratch/copy/include/fintaqush.h"
    reports uint33_t "$scratch/copy/scripts/abi.py" --check || return
    copy_of_sources
    sed -i "s|^#define FQ_VERSION_PATCH .*|& /* $(printf 'x%.0s' {1..80}) */|" "$scratch/copy/include/fintaqush.h"
    reports 'of fintaqush.h has over 100 columns' "$scratch/copy/scripts/abi.py" --check || return
    copy_of_sources
    echo "// $(printf 'x%.0s' {1..98})" >> "$scratch/copy/include/fintaqush.hpp"
    reports 'of fintaqush.hpp has over 100 columns' "$scratch/copy/scripts/abi.py" --check
}

# Without clang, a header that was changed since it was read is reported.
reports_without_clang() {
    local python
    python=$(python3 -c 'import sys; print(sys.executable)')
    copy_of_sources
    mkdir -p "$scratch/bin"
    env PATH="$scratch/bin" "$python" "$scratch/copy/scripts/abi.py" --check || return
    echo >> "$scratch/copy/include/fintaqush.h"
    reports include/fintaqush.h env PATH="$scratch/bin" "$python" "$scratch/copy/scripts/abi.py" --check
}

# Python's structs and numbers are the header's, as another compiler than the one that read it knows them.
python_has_the_structs() {
    python3 "$top/tests/abi.py" --python > "$scratch/python.c" && [ "$(grep -c Static_assert "$scratch/python.c")" -gt 200 ] &&
        gcc -std=c11 -Wall -Wextra -Werror -I "$top/include" -fsyntax-only "$scratch/python.c"
}

check 'what is made of the header' "$top/scripts/abi.py" --check
check 'the exports have its types' python3 "$top/tests/abi.py"
check 'planted faults of the exports are found' python3 "$top/tests/abi.py" --planted
check 'Python has its structs and numbers' python_has_the_structs
check 'a header that was not read is reported' reports_without_clang
if has clang 'the reader of the header'; then
    check 'planted faults of the header are found' python3 "$top/tests/abi.py" --planted-in-header
    check 'a new call is written to all files' new_call_is_written
    check 'a new message is written to all files' new_message_is_written
    check 'a header that does not compile is refused' wrong_header_is_refused
fi
sum_up
