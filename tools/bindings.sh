#!/usr/bin/env bash
# Builds libvelodrome, static and shared, and runs all examples and tests of the bindings with the compilers that are there.
#
#     tools/bindings.sh [--built] [session|c|cpp|examples|rust|python ..]
#
# With --built it takes the library of crates/velo_ffi as it was built last; with words, only these parts are run. All that is made
# lies in bindings/out, and what an install would have in bindings/out/prefix. What the tests need of Debian's packages is installed
# where it runs as root there; else they are left out, with a word. The last line is `N passed, N failed`, and the status is 1 where
# one failed, or nothing ran.
set -uo pipefail
top=$(cd "$(dirname "$0")/.." && pwd)
out=$top/bindings/out
prefix=$out/prefix
session=$top/bindings/session
kit=$(dirname "$(dirname "$(readlink -f "$(command -v rt)")")")
includes=(-I"$top/bindings/c" -I"$session" -I"$top/bindings/cpp")
warnings=(-Wall -Wextra -Werror)
passed=0
failed=0

# step NAME COMMAND..: one thing that passes or fails; a quarter of an hour at the most
step() {
    local name=$1
    shift
    if "$@" >"$out/step.log" 2>&1; then
        echo "passed: $name"
        passed=$((passed + 1))
    else
        echo "FAILED: $name"
        sed 's/^/    /' "$out/step.log" | tail -20
        failed=$((failed + 1))
    fi
}

# status WANTED COMMAND..: passes where the command ends with that status
status() {
    local wanted=$1
    shift
    "$@"
    [ $? -eq "$wanted" ]
}

# says TEXT COMMAND..: passes where the command fails and its output has the text
says() {
    local text=$1
    shift
    if "$@" >"$out/said.log" 2>&1 || ! grep -q -- "$text" "$out/said.log"; then
        cat "$out/said.log"
        return 1
    fi
}

# warns TEXT COMMAND..: passes where the command passes and its output has the text
warns() {
    local text=$1
    shift
    if ! "$@" >"$out/said.log" 2>&1 || ! grep -q -- "$text" "$out/said.log"; then
        cat "$out/said.log"
        return 1
    fi
}

# kept LOG: an alarm's log and names are there
kept() {
    [ -s "$1" ] && [ -s "$1.names" ]
}

# there TEST PACKAGE..: whether the test command passes, if need be once Debian's packages are installed
there() {
    local test=$1
    shift
    $test >/dev/null 2>&1 && return
    [ $# -gt 0 ] && [ "$(id -u)" -eq 0 ] && command -v apt-get >/dev/null || return 1
    echo "installs: $*"
    apt-get -qq update >/dev/null 2>&1
    DEBIAN_FRONTEND=noninteractive apt-get -qq -o DPkg::Lock::Timeout=300 --no-install-recommends install "$@" >/dev/null 2>&1
    $test >/dev/null 2>&1
}

# have COMMAND [PACKAGE]: whether the command is there, which the package has, or that of its own name; '': none has it
have() {
    # shellcheck disable=SC2086
    there "command -v $1" ${2-$1} || { echo "left out: no $1"; return 1; }
}

python_with_pytest() {
    /usr/bin/python3 -c 'import pytest, ensurepip'
}

in_time() {
    timeout -k 5 900 "$@"
}

built=false
if [ "${1:-}" = --built ]; then
    built=true
    shift
fi
parts=("$@")
wants() {
    [ ${#parts[@]} -eq 0 ] || [[ " ${parts[*]} " == *" $1 "* ]]
}

compilers=()
mkdir -p "$out"
for compiler in gcc clang; do
    have $compiler && compilers+=("$compiler")
done
[ ${#compilers[@]} -gt 0 ] || { echo "bindings: no C compiler" >&2; exit 1; }

# ---- the library: its calls behind their shell, and the session layer, in one archive. What the calls stand on, the calls of the C
# library included, is known within its object alone

$built || (cd "$top/crates/velo_ffi" && rt lib) || exit 1
made=${VELODROME_CALLS:-$top/crates/velo_ffi/out/libvelo_ffi.a} # another one: to try the bindings before its proof
[ -f "$made" ] || { echo "bindings: $made is not there: run this without --built" >&2; exit 1; }
for source in c/velodrome.c session/session.c; do
    "${compilers[0]}" -std=gnu11 -O2 -fPIC -Wshadow "${warnings[@]}" "${includes[@]}" -c "$top/bindings/$source" -o "$out/$(basename "$source" .c).o" || exit 1
done
ld -r -o "$out/calls.o" "$out/velodrome.o" --whole-archive "$made" --no-whole-archive "$kit/c/liblibc_c.a" || exit 1
objcopy -w --keep-global-symbol='velodrome_*' "$out/calls.o" || exit 1
rm -f "$out/libvelodrome.a" "$out"/libvelodrome.so*
ar rcs "$out/libvelodrome.a" "$out/calls.o" "$out/session.o" || exit 1
step "shared library" "${compilers[0]}" -shared -pthread -o "$out/libvelodrome.so.0" -Wl,-soname,libvelodrome.so.0 \
    -Wl,--version-script="$session/exports.map" -Wl,--whole-archive "$out/libvelodrome.a" -Wl,--no-whole-archive
ln -sf libvelodrome.so.0 "$out/libvelodrome.so"

# has_its_own_alone NM..: each symbol that it lists is velodrome_* or vs_*
has_its_own_alone() {
    "$@" | awk 'NF == 3 && $2 != "A" {sub("@.*", "", $3); print $3}' >"$out/symbols" && grep -q '^velodrome_open$' "$out/symbols" && ! grep -v -E '^(velodrome|vs)_' "$out/symbols"
}
step "archive: its symbols are velodrome_* and vs_* alone" has_its_own_alone nm -g --defined-only "$out/libvelodrome.a"
step "shared library: its symbols are velodrome_* and vs_* alone" has_its_own_alone nm -D --defined-only "$out/libvelodrome.so.0"
step "shared library: SONAME" sh -c "objdump -p '$out/libvelodrome.so.0' | grep -q 'SONAME *libvelodrome.so.0'"

# every package has the version of the header
versions_agree() {
    local version file
    version=$(sed -n 's/^#define VELODROME_VERSION "\(.*\)"$/\1/p' "$top/bindings/c/velodrome.h")
    for file in CMakeLists.txt rust/Cargo.toml python/pyproject.toml python/src/velodrome/__init__.py; do
        grep -E -q "(version|VERSION)(__)?\W+$version\b" "$top/bindings/$file" || { echo "$file is not of version $version"; return 1; }
    done
}
step "versions agree" versions_agree

# build COMPILER OUTPUT SOURCE FLAG..: a C program over the library
build() {
    local compiler=$1 output=$2 source=$3
    shift 3
    "$compiler" -std=gnu11 -O2 -gdwarf-4 "${warnings[@]}" "${includes[@]}" -pthread -o "$output" "$source" "$@" "$out/libvelodrome.a"
}

# tsan_tests COMPILER: the C++ tests and the session layer, instrumented
tsan_tests() {
    local c=${1/clang++/clang}
    ${c/g++/gcc} -std=gnu11 -O1 -g -fsanitize=thread "${includes[@]}" -c "$session/session.c" -o "$out/session_tsan.o" &&
        $1 -std=c++17 -O1 -g -fsanitize=thread "${includes[@]}" -pthread -o "$out/cpp_tsan" "$top/bindings/cpp/test.cpp" "$out/session_tsan.o" "$out/libvelodrome.a"
}

# mixed COMPILER: a program whose files are built in two ways
mixed() {
    $1 -std=c++17 -DVELODROME_OFF "${includes[@]}" -c -o "$out/mixed_off.o" "$top/bindings/cpp/mixed.cpp" &&
        $1 -std=c++17 "${includes[@]}" -pthread -o "$out/mixed" "$top/bindings/cpp/mixed.cpp" "$out/mixed_off.o" "$out/libvelodrome.a"
}

# cost_builds COMPILER: what a round costs, by the shell and by the calls
cost_builds() {
    local c=${1/clang++/clang}
    ${c/g++/gcc} -std=gnu11 -O2 "${warnings[@]}" "${includes[@]}" -c "$top/bindings/cpp/cost_calls.c" -o "$out/cost_calls.o" &&
        $1 -std=c++17 -O2 "${warnings[@]}" "${includes[@]}" -pthread -o "$out/cpp_cost" "$top/bindings/cpp/cost.cpp" "$out/cost_calls.o" "$out/libvelodrome.a"
}

valgrinds() {
    local name=$1
    shift
    step "$name leaks nothing" in_time valgrind -q --leak-check=full --show-leak-kinds=definite,indirect --errors-for-leak-kinds=definite,indirect --error-exitcode=9 "$@"
}

# ---- the session layer

if wants session; then
    refusing=-Wl,--wrap=malloc,--wrap=calloc,--wrap=realloc
    for compiler in "${compilers[@]}"; do
        for program in test fuzz long; do
            step "session: $program builds ($compiler)" build "$compiler" "$out/session_$program" "$session/$program.c"
        done
        step "session: memory builds ($compiler)" build "$compiler" "$out/session_memory" "$session/memory.c" "$session/session.c" $refusing
        step "session: tests ($compiler)" in_time "$out/session_test"
        step "session: copies builds ($compiler)" build "$compiler" "$out/session_copies" "$session/copies.c" -ldl
        step "session: two copies in one process ($compiler)" in_time "$out/session_copies" "$out/libvelodrome.so.0"
        step "session: fuzz against the calls ($compiler)" in_time "$out/session_fuzz" 20000
        step "session: each allocation refused in turn ($compiler)" in_time "$out/session_memory"
        step "session: longer than a log ($compiler)" in_time "$out/session_long"
        step "session: longer than a log, with an alarm at its end ($compiler)" in_time "$out/session_long" lost
        step "session: tests build for ThreadSanitizer ($compiler)" build "$compiler" "$out/session_tsan" "$session/test.c" "$session/session.c" -fsanitize=thread -O1
        step "session: ThreadSanitizer is silent ($compiler)" in_time "$out/session_tsan"
    done
    if have valgrind; then
        valgrinds "session: tests" "$out/session_test"
        valgrinds "session: fuzz" "$out/session_fuzz" 300
    fi
fi

# ---- C

if wants c; then
    for compiler in "${compilers[@]}"; do
        rm -f "$out"/{lost_update,cost,test,threads,memory,renew}
        step "c: make with $compiler" make -s -C "$top/bindings/c" CC="$compiler" LIBRARY="$out"
        step "c: example ($compiler)" "$out/lost_update"
        step "c: tests ($compiler)" "$out/test" "$top/bindings/c/data"
        step "c: each growth refused in turn ($compiler)" "$out/memory"
        step "c: 64 threads behind a lock ($compiler)" "$out/threads"
        step "c: renewed runs against whole ones ($compiler)" "$out/renew"
        step "c: a million events ($compiler)" "$out/cost"
        step "c: pthreads, watched ($compiler)" build "$compiler" "$out/pthreads" "$top/bindings/c/pthreads.c"
        step "c: pthreads, watched: tests ($compiler)" in_time "$out/pthreads"
        step "c: pthreads with VELODROME_OFF ($compiler)" "$compiler" -std=gnu11 -DVELODROME_OFF "${warnings[@]}" "${includes[@]}" -pthread -o "$out/pthreads_off" "$top/bindings/c/pthreads.c"
        step "c: pthreads with VELODROME_OFF: tests ($compiler)" in_time "$out/pthreads_off"
    done
    if have valgrind; then
        for program in "test $top/bindings/c/data" memory threads cost pthreads "renew 300"; do
            # shellcheck disable=SC2086 # a program and its words
            valgrinds "c: ${program%% *}" "$out"/$program
        done
    fi
fi

# ---- C++

if wants cpp; then
    for compiler in g++ clang++; do
        have $compiler "${compiler/clang++/clang}" || continue
        flags=(-O2 -gdwarf-4 -Wpedantic "${warnings[@]}" "${includes[@]}" -pthread)
        for standard in 17 20; do
            step "cpp: tests build (C++$standard, $compiler)" $compiler -std=c++$standard "${flags[@]}" -o "$out/cpp_test" "$top/bindings/cpp/test.cpp" "$out/libvelodrome.a"
            step "cpp: tests (C++$standard, $compiler)" in_time env -C "$out" "$out/cpp_test"
            step "cpp: VELODROME_OFF builds without the library (C++$standard, $compiler)" $compiler -std=c++$standard "${flags[@]}" -o "$out/cpp_off" "$top/bindings/cpp/off.cpp"
            step "cpp: VELODROME_OFF (C++$standard, $compiler)" "$out/cpp_off"
        done
        step "cpp: without exceptions, no name hides another ($compiler)" $compiler -std=c++17 "${flags[@]}" -fno-exceptions -Wshadow -include velodrome.hpp -c -o /dev/null -x c++ /dev/null
        step "cpp: with and without VELODROME_OFF in one program ($compiler)" says 'undefined reference' mixed $compiler
        step "cpp: cost builds ($compiler)" cost_builds $compiler
        step "cpp: cost of a round ($compiler)" in_time "$out/cpp_cost"
        step "cpp: a block that ends at once is refused ($compiler)" says discarded $compiler -std=c++17 "${flags[@]}" -c -o /dev/null "$top/bindings/cpp/discarded.cpp"
        step "cpp: tests build for ThreadSanitizer ($compiler)" tsan_tests $compiler
        step "cpp: ThreadSanitizer is silent ($compiler)" in_time env -C "$out" TSAN_OPTIONS=die_after_fork=0 "$out/cpp_tsan" -timed_mutexes
    done
    if [ -x "$out/cpp_test" ] && have valgrind; then
        # a child of fork(2) has lost what the threads of its parent had on their stacks
        valgrinds "cpp: tests" env -C "$out" "$out/cpp_test" -noise_finds_what_is_rare -more_objects_than_numbers -many_labels -thousands_of_sessions -children_of_fork -a_fork_within_an_access
    fi
fi

# ---- small projects with tests of their own, over what an install has

# block N: the Nth block of code of EMBEDDING.md
block() {
    awk -v wanted="$1" '/^    / {if (!inside) n++; inside = 1} /^[^ ]/ {inside = 0} inside && n == wanted {sub("^    ", ""); print}' "$top/docs/EMBEDDING.md"
}

if wants examples && have cmake; then
    rm -rf "$prefix" "$out"/build_*
    step "install: configures" cmake -S "$top/bindings" -B "$out/build_install" -DVELODROME_LIBRARIES="$out"
    step "install" cmake --install "$out/build_install" --prefix "$prefix"
    for language in c cpp; do
        [ $language = c ] || there "test -e /usr/include/gtest/gtest.h" libgtest-dev || { echo "left out: no GoogleTest"; continue; }
        build_folder=$out/build_$language
        repeated=(ctest --test-dir "$build_folder" --output-on-failure --repeat until-fail:1000)
        step "examples: $language configures" cmake -S "$top/bindings/examples/$language" -B "$build_folder" -DCMAKE_PREFIX_PATH="$prefix" -DCMAKE_BUILD_TYPE=Release
        step "examples: $language builds" cmake --build "$build_folder"
        step "examples: $language, careful: a hundred times without an alarm" in_time ctest --test-dir "$build_folder" --output-on-failure --repeat until-fail:100 -R '[Cc]areful'
        step "examples: $language, careless: repeated until it fails" says 'not atomic: deposit_carelessly' in_time "${repeated[@]}" -R '[Cc]areless'
        step "examples: $language, its log is kept" kept "$build_folder"/*[Cc]areless.vlog
        incomplete=(env VELODROME_EVENTS=2 ctest --test-dir "$build_folder" -R '[Cc]areful')
        step "examples: $language, incomplete: it fails" says 'too many events while a block was open' "${incomplete[@]}" --verbose
        step "examples: $language, incomplete, with VELODROME_INCOMPLETE=warn: it says why" warns 'too many events while a block was open' env VELODROME_INCOMPLETE=warn "${incomplete[@]}" --verbose
        step "examples: $language, incomplete, with VELODROME_INCOMPLETE=warn: it is skipped" warns '(Skipped)' env VELODROME_INCOMPLETE=warn "${incomplete[@]}"
    done
    if [ -x "$out/build_cpp/bank_test" ]; then
        rm -rf "$out/embedding"
        mkdir "$out/embedding"
        block 2 >"$out/embedding/CMakeLists.txt"
        block 3 >"$out/embedding/bank_test.cpp"
        step "EMBEDDING: its project configures" cmake -S "$out/embedding" -B "$out/embedding/build" -DCMAKE_PREFIX_PATH="$prefix"
        step "EMBEDDING: its project builds" cmake --build "$out/embedding/build"
        step "EMBEDDING: its project, repeated until it fails" says 'not atomic: deposit (bank_test.cpp:6)' in_time env VELODROME_NOISE=4 \
            ctest --test-dir "$out/embedding/build" --repeat until-fail:1000 --output-on-failure
    fi
    if [ -x "$out/build_cpp/lost_update" ]; then
        step "examples: cpp, the first program" status 3 "$out/build_cpp/lost_update"
        step "examples: cpp with WATCH=OFF configures" cmake -S "$top/bindings/examples/cpp" -B "$out/build_off" -DCMAKE_PREFIX_PATH="$prefix" -DWATCH=OFF
        step "examples: cpp with WATCH=OFF builds" cmake --build "$out/build_off"
        step "examples: cpp with WATCH=OFF" ctest --test-dir "$out/build_off" --output-on-failure
    fi
    if have pkg-config pkgconf; then
        by_pkg_config=$(PKG_CONFIG_PATH=$prefix/lib/pkgconfig pkg-config --cflags --libs velodrome)
        step "install: pkg-config" sh -c "g++ -std=c++17 -o '$out/by_pkg_config' '$top/bindings/examples/cpp/lost_update.cpp' $by_pkg_config"
        step "install: linked with libvelodrome.so.0" status 3 "$out/by_pkg_config"
    fi
fi

# ---- Rust

if wants rust && have cargo ''; then
    rust=$top/bindings/rust/Cargo.toml
    bank=$top/bindings/examples/rust/Cargo.toml
    export VELODROME_LIB_DIR=$out CARGO_TARGET_DIR=$out/cargo VELODROME_LOGS=$out/logs
    step "rust: tests" in_time cargo test --offline --quiet --workspace --manifest-path "$rust"
    cargo clippy --version >/dev/null 2>&1 &&
        step "rust: no warnings" cargo clippy --offline --quiet --workspace --all-targets --manifest-path "$rust" -- -D warnings
    step "rust: documents" env RUSTDOCFLAGS="-D warnings" cargo doc --offline --quiet --no-deps --workspace --manifest-path "$rust"
    step "rust: a relative folder" sh -c "cd '$top' && VELODROME_LIB_DIR=bindings/out cargo test --offline --quiet --no-run --manifest-path bindings/rust/Cargo.toml -p velodrome"
    step "rust: cost of a round" in_time cargo run --release --offline --quiet --manifest-path "$rust" --example cost
    platform=$top/bindings/rust/velodrome-sys/lib/$(rustc -vV | sed -n 's/^host: //p')
    mkdir -p "$platform" && cp "$out/libvelodrome.a" "$platform/"
    step "rust: the crates as packages" env -u VELODROME_LIB_DIR cargo package --workspace --offline --quiet --allow-dirty --manifest-path "$rust"
    rm -rf "$top/bindings/rust/velodrome-sys/lib"
    step "examples: rust without velodrome" cargo test --offline --quiet --manifest-path "$bank"
    step "examples: rust, careful: a hundred times without an alarm" in_time env VELODROME_NOISE=4 cargo test --offline --quiet --manifest-path "$bank" --features watch careful
    step "examples: rust, careless: repeated until it fails" says 'not atomic: bank::deposit_carelessly (lib.rs:' in_time env VELODROME_NOISE=4 cargo test --offline --quiet --manifest-path "$bank" --features watch careless
    incomplete=(env VELODROME_EVENTS=2 cargo test --offline --quiet --manifest-path "$bank" --features watch careful)
    step "examples: rust, incomplete: it fails" says 'too many events while a block was open' in_time "${incomplete[@]}"
    step "examples: rust, incomplete, with VELODROME_INCOMPLETE=warn" warns 'too many events while a block was open' in_time env VELODROME_INCOMPLETE=warn "${incomplete[@]}"
    step "examples: rust, its log is kept" kept "$out/logs/bank.careless.vlog"
    unset VELODROME_LIB_DIR CARGO_TARGET_DIR VELODROME_LOGS
fi

# ---- Python

if wants python && have python3; then
    python=$top/bindings/python
    with_pytest= # python3-pytest is Debian's package, for its own python3
    for candidate in python3 /usr/bin/python3; do
        [ -n "$with_pytest" ] || ! $candidate -c 'import pytest, ensurepip' 2>/dev/null || with_pytest=$candidate
    done
    [ -n "$with_pytest" ] || ! there python_with_pytest python3-pytest python3-venv || with_pytest=/usr/bin/python3
    export PYTHONDONTWRITEBYTECODE=1 VELODROME_LOGS=$out/logs
    rm -rf "$out"/velodrome-*.whl "$out/logs"
    step "python: wheel of manylinux_2_17" python3 "$python/make_wheel.py" "$out/libvelodrome.a" "$out"
    step "python: the same by pip" env VELODROME_LIB_DIR="$out" python3 -m pip wheel --quiet --no-index --no-deps --disable-pip-version-check --wheel-dir "$out/pip" "$python"
    fresh=$(mktemp -d) # outside, as it has links
    step "python: fresh environment" "${with_pytest:-python3}" -m venv ${with_pytest:+--system-site-packages} "$fresh"
    step "python: wheel installs" "$fresh/bin/pip" install --quiet --no-index --disable-pip-version-check "$out"/velodrome-*.whl
    step "python: tests" in_time env -C "$fresh" "$fresh/bin/python" -X dev "$python/tests/test_velodrome.py"
    unpacked=$fresh/unpacked
    step "python: wheel unpacks" "$fresh/bin/python" -m zipfile -e "$out"/velodrome-*.whl "$unpacked"
    for other in "${PYENV_ROOT:-$HOME/.pyenv}"/versions/3.*/bin/python3; do
        "$other" -c 'import sys; sys.exit(sys.version_info < (3, 9))' 2>/dev/null || continue
        step "python: tests ($("$other" -V))" in_time env -C "$fresh" PYTHONPATH="$unpacked" "$other" "$python/tests/test_velodrome.py" Tasks Suspended Types
    done
    step "python: cost of an event" in_time env -C "$fresh" "$fresh/bin/python" "$python/cost.py"
    if [ -n "$with_pytest" ]; then
        pytest=(in_time env -C "$fresh" "$fresh/bin/python" -m pytest -q -p no:cacheprovider --rootdir "$fresh")
        bank=$top/bindings/examples/python/test_bank.py
        step "python: tests of the pytest plugin" "${pytest[@]}" "$python/tests/test_pytest_plugin.py"
        step "examples: python, careful: a hundred times without an alarm" "${pytest[@]}" --velodrome-noise 4 "$bank" -k careful
        step "examples: python, careless: repeated until it fails" says 'not atomic: Account.deposit_carelessly (bank.py:' "${pytest[@]}" --velodrome-noise 4 "$bank" -k careless
        checker=$top/crates/velodrome/out/velodrome
        if [ -x "$checker" ]; then
            shows_lines=(in_time env PATH="$top/report/bin:$PATH" VELODROME="$checker" "${pytest[@]:1}")
            step "examples: python, careless: with its lines of source" says '^  > thread .*bank.py:.*balance' "${shows_lines[@]}" --velodrome-noise 4 "$bank" -k careless
        else
            echo "left out: no program, which velodrome-report asks"
        fi
        step "examples: python, its log is kept" kept "$out"/logs/*test_careless.vlog
        incomplete=(in_time env VELODROME_EVENTS=2 "${pytest[@]:1}" "$bank" -k careful)
        step "examples: python, incomplete: it fails" says 'too many events while a block was open' "${incomplete[@]}"
        step "examples: python, incomplete, with --velodrome-incomplete warn" warns 'too many events while a block was open' "${incomplete[@]}" --velodrome-incomplete warn
    else
        echo "left out: no pytest"
    fi
    rm -rf "$fresh"
    unset PYTHONDONTWRITEBYTECODE VELODROME_LOGS
fi

rm -f "$out/step.log" "$out/said.log" "$out/symbols"
echo "$passed passed, $failed failed"
[ "$failed" -eq 0 ] && [ "$passed" -gt 0 ]
