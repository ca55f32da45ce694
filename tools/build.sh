#!/usr/bin/env bash
# Builds the program, crates/velodrome/out/velodrome, and checks the log of a lost update with it.
#
#     tools/build.sh [JOBS]          proves all crates that it stands on, JOBS at a time
#     tools/build.sh --unproved      makes the same program in some minutes, and proves nothing
#
# Without JOBS as many are proved at a time as there are processors and 4 GB of memory for each. The crates that only test others,
# the example and the library for other languages are left out. After each crate it says how many there are, and about how long is
# left. The status is not 0 if a proof failed.
#
# For --unproved `rt try` hands the kit's compiler the whole program, with a check in the place of each proof. Here a folder that
# looks like the kit keeps that text, the checks are taken out, and it is compiled once more, with optimisation. What comes out may
# do anything where a proof would fail. It needs gcc for the last step.
set -euo pipefail
top=$(cd "$(dirname "$0")/.." && pwd)
home=$top/crates/velodrome
out=$home/out/velodrome
usage() {
    sed -n '4,5s/^# *//p' "$0" >&2
    exit 2
}

# how many crates are proved at a time
jobs_there_are() {
    local gigabytes
    gigabytes=$(awk '/MemAvailable/ { print int($2 / 1048576) }' /proc/meminfo)
    echo $((gigabytes / 4 < 1 ? 1 : gigabytes / 4 < $(nproc) ? gigabytes / 4 : $(nproc)))
}

# ends well where the program finds the alarm of the lost update, for which its status is 3
check_lost_update() {
    local status=0
    "$@" check "$home/data/lost.log" || status=$?
    [ "$status" -eq 3 ]
}

proved() {
    mkdir -p "$home/out"
    python3 "$top/tools/progress.py" "$home/out/build.log" "$1"
    echo "linking $out"
    cd "$home"
    check_lost_update rt run --
}

# the kit, but for a compiler that keeps what it is given
make_listening_kit() {
    local kit=$1 work=$2 file place
    mkdir -p "$work/kit/bin" "$work/kit/toolchain/bin" "$work/kept"
    for file in "$kit"/* "$kit"/bin/* "$kit"/toolchain/* "$kit"/toolchain/bin/*; do
        place=$work/kit/${file#"$kit"/}
        [ -e "$place" ] || ln -s "$file" "$place"
    done
    rm "$work/kit/bin/rt" "$work/kit/bin/rtlib.py" "$work/kit/toolchain/bin/clang"
    cp "$kit/bin/rt" "$kit/bin/rtlib.py" "$work/kit/bin/"
    cat >"$work/kit/toolchain/bin/clang" <<WRAPPER
#!/usr/bin/env bash
for word in "\$@"; do
    case \$word in *.bc) cp "\$word" "$work/kept/\$\$.bc" ;; esac
done
exec "$kit/toolchain/bin/clang" "\$@"
WRAPPER
    chmod +x "$work/kit/toolchain/bin/clang"
}

unproved() {
    local kit work module
    command -v gcc >/dev/null || { echo "build: --unproved needs gcc" >&2; exit 1; }
    kit=$(dirname "$(rt doc)")
    work=$(mktemp -d)
    # shellcheck disable=SC2064 # the folder of now
    trap "rm -rf '$work'" EXIT
    make_listening_kit "$kit" "$work"
    (cd "$home" && "$work/kit/bin/rt" try --seconds 1 -- check data/lost.log) >"$work/said" 2>&1 || true
    # the largest of what the compiler was given is the program
    module=$(find "$work/kept" -name '*.bc' -printf '%s %p\n' | sort -n | tail -n 1 | cut -d' ' -f2-)
    [ -n "$module" ] || { cat "$work/said" >&2; exit 1; }
    clang() { "$kit/toolchain/bin/clang" --target=x86_64-unknown-linux-gnu -march=x86-64-v2 -fPIE -Wno-everything -x ir "$@"; }
    clang -S -emit-llvm -Xclang -disable-llvm-passes "$module" -o "$work/program.ll"
    sed -i '/call void @llvm\.trap()/d' "$work/program.ll"
    python3 "$top/tools/inline_attributes.py" "$work/program.ll" "$work/inlined.ll"
    clang -O2 -c "$work/inlined.ll" -o "$work/program.o"
    mkdir -p "$home/out"
    gcc -pie -o "$out" "$work/program.o" "$kit"/c/libos_c.a "$kit"/c/liblibc_c.a -lm -pthread
    check_lost_update "$out"
    echo "nothing was proved: $out is for trying"
}

[ $# -le 1 ] || usage
case ${1:-} in
    --unproved) unproved ;;
    '') proved "$(jobs_there_are)" ;;
    *[!0-9]* | 0) usage ;;
    *) proved "$1" ;;
esac
