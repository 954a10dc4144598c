#!/usr/bin/env bash
# Every public item, field, variant and trait method of the crates has a `///` above it. Each that lacks one is printed. The
# last line sums up the files: N passed, M failed.
set -euo pipefail
unset CDPATH
cd "$(dirname "$(dirname "$(readlink -f "${BASH_SOURCE[0]}")")")"

passed=0
failed=0
for file in $(git ls-files 'crates/*/src/*.rt'); do
    # `inside` is the public enum or trait, at this depth, whose items need a line each; `has_doc` says that the last line, apart
    # from attributes, was a `///`.
    if awk '
        { match($0, /^ */); depth = RLENGTH; line = substr($0, depth + 1) }
        line == "" || line ~ /^#\[/ { if (line == "") has_doc = 0; next }
        line ~ /^\/\/\// { has_doc = 1; next }
        line ~ /^\/\// { next }
        inside != "" && depth <= outer { inside = "" }
        {
            item = line ~ /^pub / && line !~ /^pub (use|mod) /
            if (inside == "enum" && depth == outer + 4 && line ~ /^[A-Z]/) item = 1
            if (inside == "trait" && depth == outer + 4 && line ~ /^(fn|type|const) /) item = 1
            if (item && !has_doc) { printf "%s:%d: %s\n", FILENAME, NR, line; missing = 1 }
            if (line ~ /^pub enum .*\{$/) { inside = "enum"; outer = depth }
            if (line ~ /^pub trait .*\{$/) { inside = "trait"; outer = depth }
            has_doc = 0
        }
        END { exit missing }' "$file"; then
        passed=$((passed + 1))
    else
        failed=$((failed + 1))
    fi
done
echo "$passed passed, $failed failed"
[ "$failed" = 0 ]
