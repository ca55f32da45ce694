#!/usr/bin/env bash
# Builds five programs from Debian's sources, unchanged, with the recorder's compilers, records a run of each in exact mode, and
# checks that the checker refuses no log.
#
#     tools/recorder.sh PROGRAM [FOLDER]
#
# PROGRAM is the built `velodrome`. FOLDER (recorder/out/real) keeps sources and builds: what is there is not made again. It needs
# the compilers, cmake, libbz2-dev, apt-get and Debian's mirror, and a quarter of an hour. Programs that do not build, for want of
# a source or a library, are told as left out. The last line is `N passed, N failed, N left out`; the status is 0 where none failed.
set -uo pipefail
top=$(cd "$(dirname "$0")/.." && pwd)
[ $# -ge 1 ] || { sed -n '2,11s/^# \{0,1\}//p' "$0"; exit 2; }
checker=$(readlink -f "$1")
room=${2:-$top/recorder/out/real}
passed=0
failed=0
left=0
jobs=${JOBS:-2}
release=$(sed -n 's/^VERSION_CODENAME=//p' /etc/os-release)
make -s -C "$top/recorder" || exit 1
export PATH=$top/recorder/out/bin:$PATH
mkdir -p "$room/apt/lists/partial" "$room/apt/cache/archives/partial"
room=$(cd "$room" && pwd)
no_autotools=(AUTOMAKE=: AUTOCONF=: ACLOCAL=: AUTOHEADER=:)

apt=(apt-get -qq -o "Dir::Etc::SourceList=$room/apt/sources.list" -o Dir::Etc::SourceParts=/dev/null
    -o "Dir::State::Lists=$room/apt/lists" -o "Dir::Cache=$room/apt/cache" -o APT::Sandbox::User=root)
if [ ! -f "$room/apt/sources.list" ]; then
    echo "deb-src [signed-by=/usr/share/keyrings/debian-archive-keyring.gpg] http://deb.debian.org/debian $release main" >"$room/apt/sources.list"
    "${apt[@]}" update || { rm -f "$room/apt/sources.list"; exit 1; }
fi

# source PACKAGE: its sources, in a folder of its name
source_of() {
    [ -d "$room/$1" ] && return 0
    (cd "$room" && "${apt[@]}" source --download-only "$1" && dpkg-source --no-check -x "$1"_*.dsc "$1")
}
# build NAME COMMAND..: builds in the folder of the sources, once
build() {
    local name=$1
    shift
    [ -f "$room/$name.built" ] && return 0
    source_of "$name" >"$room/$name.log" 2>&1 && (cd "$room/$name" && "$@") >>"$room/$name.log" 2>&1 && touch "$room/$name.built"
}
leave_out() {
    echo "left out: $1, see $room/$1.log"
    left=$((left + 1))
}
# judge NAME: the log of the run, and what the checker says of it
judge() {
    local name=$1 trace status
    trace=$(find "$room" -maxdepth 1 -name "$name.trace.*[0-9]" | head -1)
    if [ -z "$trace" ] || ! velodrome-log "$trace" "$room/$name.vlog" --events 16777216 >"$room/$name.said"; then
        echo "FAILED: $name: no log"
        failed=$((failed + 1))
        return
    fi
    "$checker" check "$room/$name.vlog" --names "$room/$name.vlog.names" --events 16777216 >"$room/$name.report" 2>"$room/$name.refused"
    status=$?
    sed "s/^/$name: /" "$room/$name.said"
    if [ $status -eq 0 ] || [ $status -eq 3 ]; then
        echo "passed: $name: $(grep '^verdict' "$room/$name.report")"
        passed=$((passed + 1))
    else
        echo "FAILED: $name: status $status: $(cat "$room/$name.refused")"
        failed=$((failed + 1))
    fi
    rm -f "$trace"
}
# record NAME COMMAND..: in exact mode
record() {
    local name=$1
    shift
    rm -f "$room/$name.trace."*
    VELODROME_OUT=$room/$name.trace timeout 240 "$@" >"$room/$name.run" 2>&1
}

# serve NAME SIGNAL SERVER.. -- CLIENT..: records the server in exact mode, until the client is done and the signal came
serve() {
    local name=$1 signal=$2 server=() pid
    shift 2
    while [ "$1" != -- ]; do
        server+=("$1")
        shift
    done
    shift
    rm -f "$room/$name.trace."*
    VELODROME_OUT=$room/$name.trace "${server[@]}" >"$room/$name.run" 2>&1 &
    pid=$!
    timeout 200 "$@" >"$room/$name.client" 2>&1
    kill "-$signal" "$pid" 2>/dev/null
    (sleep 60; kill -KILL "$pid" 2>/dev/null) &
    wait "$pid"
    kill $! 2>/dev/null
}

build_leveldb() {
    mkdir -p made && cd made &&
        cmake -DCMAKE_C_COMPILER=velodrome-cc -DCMAKE_CXX_COMPILER=velodrome-c++ -DLEVELDB_BUILD_TESTS=OFF -DLEVELDB_BUILD_BENCHMARKS=OFF -DCMAKE_BUILD_TYPE=None .. &&
        make -j"$jobs" &&
        velodrome-c++ -std=c++11 -DLEVELDB_PLATFORM_POSIX=1 -I.. -I../include -Iinclude ../benchmarks/db_bench.cc ../util/histogram.cc ../util/testutil.cc -o db_bench libleveldb.a
}
if build leveldb build_leveldb; then
    rm -rf "$room/leveldb.db"
    record leveldb "$room/leveldb/made/db_bench" --benchmarks=fillrandom,readrandom --num=100 --threads=4 --db="$room/leveldb.db"
    judge leveldb
else
    leave_out leveldb
fi

build_pbzip2() {
    make CXX=velodrome-c++ && [ -x pbzip2 ]
}
if build pbzip2 build_pbzip2; then
    head -c 3000000 "$room/pbzip2/pbzip2" >"$room/pbzip2.in"
    cat "$room"/pbzip2/*.cpp >>"$room/pbzip2.in"
    record pbzip2 "$room/pbzip2/pbzip2" -k -f -p4 -b1 -v "$room/pbzip2.in"
    judge pbzip2
else
    leave_out pbzip2
fi

build_libmicrohttpd() {
    ./configure -q CC=velodrome-cc --disable-https --disable-doc --disable-curl --disable-shared --enable-static &&
        make -s -j"$jobs" "${no_autotools[@]}" -C src/microhttpd && make -s "${no_autotools[@]}" -C src/examples benchmark
}
if build libmicrohttpd build_libmicrohttpd; then
    { python3 "$top/recorder/tests/load.py" http 18083 4 40 >/dev/null; sleep 1; echo; } |
        record libmicrohttpd "$room/libmicrohttpd/src/examples/benchmark" 18083
    judge libmicrohttpd
else
    leave_out libmicrohttpd
fi

build_libevent() {
    ./configure -q CC=velodrome-cc --disable-openssl --disable-samples --disable-shared --disable-libevent-regress --prefix="$room/libevent.made" &&
        make -s -j"$jobs" "${no_autotools[@]}" install
}
build_memcached() {
    ./configure -q CC=velodrome-cc --with-libevent="$room/libevent.made" && make -s -j"$jobs" "${no_autotools[@]}" memcached
}
if build libevent build_libevent && build memcached build_memcached; then
    serve memcached INT "$room/memcached/memcached" -u "$(id -un)" -l 127.0.0.1 -p 18084 -U 0 -t 4 -- python3 "$top/recorder/tests/load.py" memcached 18084 6 300
    judge memcached
else
    leave_out memcached
fi

build_redis() {
    make -s MALLOC=libc CC=velodrome-cc CXX=velodrome-c++ USE_SYSTEMD=no -j"$jobs" && [ -x src/redis-server ]
}
if build redis build_redis; then
    serve redis TERM "$room/redis/src/redis-server" --port 18085 --bind 127.0.0.1 --save '' --io-threads 2 --io-threads-do-reads yes -- \
        sh -c "sleep 2; exec '$room/redis/src/redis-benchmark' -p 18085 -c 8 -n 50 -t set,get,incr,lpush -q"
    judge redis
else
    leave_out redis
fi

echo "$passed passed, $failed failed, $left left out"
[ "$failed" -eq 0 ] && [ "$passed" -gt 0 ]
