#!/usr/bin/env bash
# Proves and tests everything: this is what has to pass before a change lands.
#
#     tools/test.sh [PART..]
#
# The parts, all of them without words:
#
#     gate        `rt ci`, on the clone as it is: proves every crate, tries its edits, runs the tests in memory
#     pages       the sessions of the documents and of tests/, over the built program
#     bodies      each well-known wrong body is refused by an edit or caught by a test
#     memory      no type keeps the word that an allocation failed
#     edits       each edit fits the code
#     python      what the documents say against the program, and the program against slow judges, in Python alone
#     report      the tests of report/
#     recorder    the tests of recorder/
#     bindings    the tests of bindings/, over the library just built
#     lint        one look for each language
#
# `gate` comes first. The others then run in two lanes side by side. Debian's packages that a part needs are installed where this
# runs as root; without them the part is not run, which is said. The last lines are the seconds of each part, what was not run, and
# `N passed, N failed`. The status is 0 only if all that ran passed.
set -uo pipefail
cd "$(dirname "$0")/.." || exit 2
export PYTHONDONTWRITEBYTECODE=1
program=$PWD/crates/velodrome/out/velodrome
limit=3600 # seconds of a part, but for the gate
parts=(gate pages bodies memory edits python report recorder bindings lint)
room=$(mktemp -d)
trap 'rm -rf "$room"' EXIT

gate() {
    rt ci
}

pages() {
    python3 tools/golden.py "$program"
}

bodies() {
    python3 tools/wrong_bodies.py
}

memory() {
    python3 tools/memory.py
}

edits() {
    python3 tools/edits.py
}

# each COMMAND is a script of tools/ with its words
scripts() {
    local command status=0
    for command in "$@"; do
        echo "-- $command"
        # shellcheck disable=SC2086 # words
        python3 tools/$command || { echo "FAILED: $command"; status=1; }
    done
    return $status
}

python() {
    scripts words.py check_links.py check_definitions.py "definitions.py --check" "crate_picture.py --check" \
        "compare_help.py $program" "shell_pages.py --check $program" "overwrites.py $program" \
        "watch.py $program" \
        "formats.py $program docs/data/leveldb.log crates/velodrome/data/lost.log" \
        "verify.py $program 100" "rest.py $program 300" "explore.py $program 30" "predict.py $program 30"
}

report() {
    make -C report test PROGRAM="$program"
}

recorder() {
    make -C recorder test VELODROME="$program"
}

bindings() {
    python3 tools/library.py && tools/bindings.sh --built
}

lint() {
    # rt ci has looked at the layout of the crates
    tools/lint.sh --but-crates
}

# needs COMMAND..: the packages that are not here, of commands that are named as COMMAND or COMMAND:PACKAGE
needs() {
    local each lacking=() packages=()
    for each in "$@"; do
        command -v "${each%%:*}" >/dev/null || packages+=("${each##*:}")
    done
    [ ${#packages[@]} -gt 0 ] || return 0
    if [ "$(id -u)" -eq 0 ] && command -v apt-get >/dev/null; then
        {
            apt-get -qq update
            # bindings.sh may be at it too
            DEBIAN_FRONTEND=noninteractive apt-get -qq -o DPkg::Lock::Timeout=300 --no-install-recommends install "${packages[@]}"
        } >/dev/null 2>&1
    fi
    for each in "$@"; do
        command -v "${each%%:*}" >/dev/null || lacking+=("${each##*:}")
    done
    [ ${#lacking[@]} -eq 0 ] || echo "${lacking[*]}"
}

# the library cannot be built over crates that the gate did not prove
is_without_gate() {
    [ -f "$room/gate.ended" ] && ! grep -q '^0 ' "$room/gate.ended"
}

# what the part needs beside Python and the kit
needs_of() {
    case $1 in
        report) needs make ;;
        recorder) needs make gcc g++ clang ;;
        bindings) if is_without_gate; then echo "a gate that passed"; else needs make gcc g++ clang ld:binutils; fi ;;
        lint) needs clang-format clang-tidy black mypy shellcheck ;;
    esac
}

# what only some of its tests need
wants_of() {
    case $1 in
        report) needs chromium dot:graphviz ;;
    esac
}

# is_here PART: whether the repository has it
is_here() {
    case $1 in
        report | recorder | bindings) [ -n "$(git ls-files "$1" | head -n 1)" ] ;;
    esac
}

is_wanted() {
    [ ${#asked[@]} -eq 0 ] || [[ " ${asked[*]} " == *" $1 "* ]]
}

# lacking QUESTION PART: one asks for packages at a time
lacking() {
    flock "$room/packages" bash -c "room='$room'; $(declare -f needs needs_of wants_of is_without_gate); $1 $2"
}

# run PART: what it says goes to a file and, where it has ended, to standard output in one piece
run() {
    local part=$1 begun=$SECONDS status
    is_here "$part" && is_wanted "$part" || return 0
    lacking needs_of "$part" >"$room/$part.needs"
    [ ! -s "$room/$part.needs" ] || return 0
    lacking wants_of "$part" >"$room/$part.wants"
    if [ "$part" = gate ]; then
        gate
    else
        timeout -k 10 "$limit" bash -c "program='$program'; $(declare -f scripts "$part"); $part" >"$room/$part.said" 2>&1 </dev/null
    fi
    status=$?
    echo "$status $((SECONDS - begun))" >"$room/$part.ended"
    [ "$part" = gate ] || flock "$room/printing" sh -c "echo '== $part'; cat '$room/$part.said'"
}

lane() {
    local part
    for part in "$@"; do
        run "$part"
    done
}

# summary: the time of each part, what was not run, and the counts
summary() {
    local part status seconds passed=0 failed=0
    echo "== time by part"
    for part in "${parts[@]}"; do
        [ -f "$room/$part.ended" ] || continue
        read -r status seconds <"$room/$part.ended"
        if [ "$status" -eq 0 ]; then
            passed=$((passed + 1))
            printf '%-10s %6d s  passed\n' "$part" "$seconds"
        else
            failed=$((failed + 1))
            printf '%-10s %6d s  FAILED\n' "$part" "$seconds"
        fi
    done
    for part in "${parts[@]}"; do
        [ ! -s "$room/$part.needs" ] || echo "not run: $part needs $(cat "$room/$part.needs")"
        [ ! -s "$room/$part.wants" ] || echo "not run: some of $part needs $(cat "$room/$part.wants")"
        [ ! -f "$room/$part.said" ] || sed -n "s/^\(left out\|not run\): \(no \)\?/not run: $part: /p" "$room/$part.said"
    done
    echo "$passed passed, $failed failed"
    [ "$failed" -eq 0 ] && [ "$passed" -gt 0 ]
}

asked=("$@")
for part in "${asked[@]}"; do
    [[ " ${parts[*]} " == *" $part "* ]] || { echo "test: no part $part; they are ${parts[*]}" >&2; exit 2; }
done
run gate
# pages and reports run the recorder where it is built; if it cannot be built, its own part says so
if { is_wanted pages || is_wanted report || is_wanted recorder; } && [ -z "$(needs_of recorder)" ]; then
    make -s -C recorder >/dev/null 2>&1
fi
lane recorder bindings &
lane pages bodies memory edits python report lint &
wait
summary
