#!/usr/bin/env bash
# Looks whether all files have the one look of their language, and for what is wrong by its form.
#
#     tools/lint.sh [--but-crates]
#
# Rattle by the kit's formatter, but not with --but-crates, as `rt ci` looks too; C and C++ by clang-format, and what ships of them by a few
# checks of clang-tidy (.clang-tidy); Python by black, and what ships of it by mypy --strict; scripts by shellcheck. All but the kit
# are Debian's packages. Files that git does not know are left out. The last line is `N passed, N failed`.
set -uo pipefail
cd "$(dirname "$0")/.." || exit 2
passed=0
failed=0

# look NAME COMMAND..: one look that passes or fails
look() {
    local name=$1
    shift
    if "$@"; then
        echo "passed: $name"
        passed=$((passed + 1))
    else
        echo "FAILED: $name"
        failed=$((failed + 1))
    fi
}

# files FOLDER.. -- SUFFIX..: those that git knows
files() {
    local folders=() suffixes=()
    while [ "$1" != -- ]; do
        folders+=("$1")
        shift
    done
    shift
    suffixes=("$@")
    git ls-files -- "${folders[@]}" | grep -E "\.($(IFS='|' && echo "${suffixes[*]}"))$" | while read -r file; do
        [ ! -f "$file" ] || echo "$file"
    done
}

# scripts_in WORD FOLDER..: the files without a suffix whose first line has the word
scripts_in() {
    local word=$1
    shift
    git ls-files -- "$@" | grep -v '\.[^/]*$' | while read -r file; do
        [ ! -f "$file" ] || ! head -n 1 "$file" | grep -aq "^#!.*$word" || echo "$file"
    done
}

# rt itself can only write the layout
crates_look_alike() {
    files crates -- rt antt | xargs "$(dirname "$(rt doc)")/bin/rattle" fmt --check
}

# tidy LANGUAGE STANDARD FILE..: each file by itself, two at a time
tidy() {
    local standard=$1
    shift
    printf '%s\n' "$@" | xargs -P 2 -I {} clang-tidy --quiet {} -- "-std=$standard" -mcx16 -Irecorder/runtime -Ibindings/c -Ibindings/session 2>&1 |
        awk '/error:|warning:/ { print; found = 1 } END { exit found }'
}

# annotated FILE..: Python with types, each script as a program of its own
annotated() {
    local status=0 file
    for file in "$@"; do
        MYPYPATH=report mypy --strict --cache-dir=/dev/null --no-error-summary "$file" || status=1
    done
    return $status
}

[ "${1:-}" = --but-crates ] || look "layout: crates" crates_look_alike
mapfile -t sources < <(files recorder bindings -- c h cpp hpp)
look "clang-format: recorder, bindings" clang-format --dry-run -Werror "${sources[@]}"
mapfile -t sources < <(files recorder/runtime bindings/c/velodrome.c bindings/session/session.c -- c)
look "clang-tidy: C" tidy gnu11 "${sources[@]}"
mapfile -t sources < <(files recorder/log -- cpp)
look "clang-tidy: C++" tidy c++17 "${sources[@]}"
mapfile -t sources < <(files . -- py && scripts_in python .)
look "black: Python" black --quiet --check "${sources[@]}"
mapfile -t sources < <(scripts_in python recorder/bin report/bin)
[ ! -d report/velodrome_report ] || sources+=(report/velodrome_report)
look "mypy: what ships" annotated bindings/python/src/velodrome "${sources[@]}"
mapfile -t sources < <(files . -- sh && scripts_in sh .)
look "shellcheck: scripts" shellcheck "${sources[@]}"
echo "$passed passed, $failed failed"
[ "$failed" -eq 0 ]
