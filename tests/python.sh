#!/usr/bin/env bash
# bindings/python with the shared library that scripts/install.sh makes: its tests, in the checkout and as it is installed, from
# another folder; its example; the errors for a library that is missing or of another version; and its types, if there is a
# mypy. It is skipped without rt, which proves and builds the library. The last line is `N passed, M failed, K skipped`.
. "$(dirname "$(readlink -f "$0")")/../scripts/checks.sh"
unset PYTHONPATH FINTAQUSH_LIB
package=$top/bindings/python
prefix=$scratch/prefix
export PYTHONDONTWRITEBYTECODE=1

for program in rt cc; do
    has "$program" 'the package for Python' || { sum_up; exit; }
done
cd "$scratch" || exit 1
files() { find "$package" | sort; }
files > before
nothing_is_left() { files | diff before -; }

tested() { python3 -W error "$package/tests/test_fintaqush.py"; }

# said_in_a_line TEXT: an import ends with status 1 and only this line, which has this text; a program that catches the error
# continues.
said_in_a_line() {
    local status=0
    python3 -c 'import fintaqush' > said 2>&1 || status=$?
    cat said
    [ "$status $(wc -l < said)" = '1 1' ] && grep -q "^ImportError: fintaqush: .*$1" said && python3 -c 'try:
    import fintaqush
except ImportError as fault:
    print("ImportError:", fault)' | diff said -
}

# A library with the header's names, which does nothing.
of_another_version() {
    grep -oE '\bfq_\w+\(' "$top/include/fintaqush.h" | sort -u | sed 's/\(.*\)(/long \1(void) { return 0; }/' > other.c &&
        cc -w -shared -fPIC other.c -o libfintaqush.so.3 && FINTAQUSH_LIB=$scratch said_in_a_line 'another version'
}

of_no_call() {
    echo 'int fq_none;' > other.c && cc -shared -fPIC other.c -o libfintaqush.so.3 && FINTAQUSH_LIB=$scratch said_in_a_line "hasn't fq_struct_size"
}

no_library_at_all() { echo text > libfintaqush.so.3 && FINTAQUSH_LIB=$scratch said_in_a_line 'file too short'; }

limits() { python3 "$package/examples/limit.py" | diff - "$top/examples/c/limit.stdout"; }

simulates() { [ "$(python3 "$package/examples/simulation.py" | awk '{ print $1 }' | xargs)" = '8 16 24 32' ]; }

check 'installs' "$top/scripts/install.sh" --library --python "$prefix"
FINTAQUSH_LIB=$prefix/lib PYTHONPATH=$package check 'its tests' tested
PYTHONPATH=$(dirname "$(find "$prefix" -name fintaqush -path '*-packages*')")
export PYTHONPATH
check 'its tests, as it is installed' tested
check 'its example' simulates
check 'the example limit, as in C' limits
FINTAQUSH_LIB=$scratch/none check 'a library that is missing' said_in_a_line "$scratch/none/libfintaqush.so.3: cannot open"
check 'one that has no call' of_no_call
check 'one of another version' of_another_version
check 'one that is none' no_library_at_all
if has mypy 'the types of the package for Python'; then
    check 'its types' mypy --strict --cache-dir="$scratch/mypy" "$package/fintaqush"
fi
check 'nothing is left in the checkout' nothing_is_left
sum_up
