#!/usr/bin/env bash
# Makes a Debian package and a tarball of all that a user needs, or tries one of them in a bare Debian.
#
#     tools/package.sh                   out/package/velodrome_VERSION_amd64.deb and velodrome-VERSION-x86_64.tar.gz
#     tools/package.sh --unproved        the same, of a checker that is built without its proof
#     tools/package.sh --built           the same, of the checker that is there, or of CHECKER
#     tools/package.sh --try FILE        puts FILE, a package or a tarball, into a Debian made by debootstrap, and runs there
#                                        the sessions of its own pages, and a program with each of its libraries
#
# In them are the checker, the recorder, the report, headers, libraries, what CMake and pkg-config read, the wheel, the crates for
# Rust, man pages, completions and documents. The checker is built by tools/build.sh, the recorder by make; of the libraries what
# tools/bindings.sh left is taken, or what lies in the folder LIBRARIES, and bindings.sh is called where there is nothing; of the
# recorder for Java what make left. The version is the checker's. The file BUILD, which `velodrome-report --version` prints, has it,
# commit and toolchain, and whether the checker was proved: of one that was built before, that is not known.
#
# It needs cmake, dpkg-dev and Python 3.11; --try needs debootstrap, root and a mirror (MIRROR), or a folder that debootstrap made
# before (DEBIAN), of which it takes a copy.
set -euo pipefail
top=$(cd "$(dirname "$0")/.." && pwd)
checker=$top/crates/velodrome/out/velodrome
libraries=${LIBRARIES:-$top/bindings/out}
to=$top/out/package
suite=bookworm # the oldest Debian that the package is for

needs() {
    local command
    for command in "$@"; do
        command -v "$command" >/dev/null || { echo "package: it needs $command" >&2; exit 2; }
    done
}

build() {
    case $proof in
        proved) "$top/tools/build.sh" ;;
        'not proved') "$top/tools/build.sh" --unproved ;;
        *) checker=${CHECKER:-$checker} ;;
    esac
    make -s -C "$top/recorder"
    [ -f "$libraries/libvelodrome.a" ] || "$top/tools/bindings.sh"
}

# the checker has one version with the libraries
version_of_all() {
    local version
    version=$("$checker" --version | cut -d ' ' -f 2)
    grep -q "VERSION $version " "$top/bindings/CMakeLists.txt" || { echo "package: the libraries are not of version $version" >&2; exit 1; }
    echo "$version"
}

# what the package was made of
build_file() {
    echo "velodrome $version"
    echo "commit $(git -C "$top" rev-parse HEAD)$(git -C "$top" diff --quiet HEAD || echo ', with changes')"
    echo "toolchain $(rt version 2>/dev/null || echo unknown), $(gcc --version | head -n 1)"
    echo "checker $proof"
}

# copy_of FOLDER TO PATTERN..: what git has of a folder, by the same paths
copy_of() {
    local folder=$1 to=$2
    shift 2
    (cd "$folder" && git ls-files -z "$@" | xargs -0 cp --parents -t "$to")
}

# man_page_of COMMAND SUMMARY: what COMMAND says of itself, as a manual page; of velodrome there are pages in docs/man
man_page_of() {
    printf '.TH %s 1 "" "" "User commands"\n.SH NAME\n%s \\- %s\n.SH DESCRIPTION\n.nf\n' "${1^^}" "${1//-/\\-}" "$2"
    "$top/recorder/out/bin/$1" --help | sed "s/\\\\/\\\\e/g; s/-/\\\\-/g; s/^[.']/\\\\\&&/"
    printf '.fi\n.SH SEE ALSO\n\\fBvelodrome\\fR(1)\n'
}

# stage ROOT: the files as they lie below a prefix. The commands find one another where they really are, in lib/velodrome/bin
stage() {
    local root=$1 command home=$1/lib/velodrome
    mkdir -p "$root"/{bin,include,lib} "$root"/share/{velodrome,man/man1,doc/velodrome,bash-completion/completions} \
        "$root"/share/{zsh/vendor-completions,fish/vendor_completions.d}
    make -s -C "$top/recorder" install PREFIX="$home" DESTDIR=
    install -s "$checker" "$home/bin/velodrome"
    [ ! -f "$top/recorder/java/out/velodrome.jar" ] || install -m 644 "$top"/recorder/java/out/*.jar "$home/lib/"
    strip --strip-unneeded "$home/bin/velodrome-log" "$home/lib/libvelodrome_recorder.so"
    build_file >"$home/BUILD"
    for command in "$home"/bin/*; do
        ln -s "../lib/velodrome/bin/$(basename "$command")" "$root/bin/"
    done
    cmake -S "$top/bindings" -B "$work/cmake" -DVELODROME_LIBRARIES="$libraries" >/dev/null
    DESTDIR='' cmake --install "$work/cmake" --prefix "$root" >/dev/null
    cp "$top/recorder/include/velodrome_atomic.h" "$root/include/"
    python3 "$top/bindings/python/make_wheel.py" "$libraries/libvelodrome.a" "$root/share/velodrome" >/dev/null
    cp "$top"/docs/man/*.1 "$root/share/man/man1/"
    man_page_of velodrome-record "runs a recorded program, and reports what its threads did" >"$root/share/man/man1/velodrome-record.1"
    man_page_of velodrome-report "lists the findings of all runs" >"$root/share/man/man1/velodrome-report.1"
    man_page_of velodrome-import "makes a log of a trace that another tool recorded" >"$root/share/man/man1/velodrome-import.1"
    gzip -9n "$root"/share/man/man1/*.1
    cp "$top/docs/completions/velodrome.bash" "$root/share/bash-completion/completions/velodrome"
    cp "$top/docs/completions/_velodrome" "$root/share/zsh/vendor-completions/"
    cp "$top/docs/completions/velodrome.fish" "$root/share/fish/vendor_completions.d/"
    # the pages as they lie here, so that their links hold; of tests/ they have links to three
    copy_of "$top" "$root/share/doc/velodrome" '*.md' 'docs/*.json' 'docs/*.png' ':!tests'
    copy_of "$top" "$root/share/doc/velodrome" tests/{explain,devices,each_byte}.md
    copy_of "$top/bindings" "$root/share/velodrome" rust
    find "$root" -name __pycache__ -prune -exec rm -r {} +
    chmod -R u=rwX,go=rX "$root"
    find "$root" -exec touch -hd "@$SOURCE_DATE_EPOCH" {} +
}

# the packages that the binaries want, by the symbols in them
wanted() {
    mkdir -p "$work/wanted/debian"
    echo 'Source: velodrome' >"$work/wanted/debian/control"
    (cd "$work/wanted" && dpkg-shlibdeps -O --ignore-missing-info "$@" 2>/dev/null) | sed -n 's/^shlibs:Depends=//p'
}

make_deb() {
    local root=$work/deb
    mkdir -p "$root/DEBIAN"
    cp -a "$work/tree" "$root/usr"
    cat >"$root/DEBIAN/control" <<CONTROL
Package: velodrome
Version: $version
Architecture: amd64
Maintainer: $(git -C "$top" log -1 --format='%an <%ae>')
Section: devel
Priority: optional
Installed-Size: $(du -sk "$root/usr" | cut -f 1)
Depends: $(wanted "$root"/usr/lib/velodrome/bin/velodrome{,-log} "$root"/usr/lib/velodrome/lib/libvelodrome_recorder.so), python3 (>= 3.9), binutils, g++ | clang
Description: finds code that was meant to be atomic and was not
 A recorder for C and C++ programs as they are, a proved checker of what their
 threads did, a report of what is wrong, and libraries for C, C++, Rust and
 Python.
CONTROL
    dpkg-deb -Zxz --root-owner-group --build "$root" "$to/velodrome_${version}_amd64.deb" >/dev/null
}

make_tarball() {
    local name=velodrome-$version-x86_64
    mv "$work/tree" "$work/$name"
    tar -C "$work" --sort=name --owner=0 --group=0 --numeric-owner --mtime="@$SOURCE_DATE_EPOCH" -c "$name" | gzip -9n >"$to/$name.tar.gz"
}

package() {
    needs cmake dpkg-deb dpkg-shlibdeps gcc make python3
    build
    version=$(version_of_all)
    SOURCE_DATE_EPOCH=$(git -C "$top" log -1 --format=%ct)
    export SOURCE_DATE_EPOCH
    mkdir -p "$to"
    stage "$work/tree"
    make_deb
    make_tarball
    ls "$to/velodrome_${version}_amd64.deb" "$to/velodrome-$version-x86_64.tar.gz"
}

# put FILE ROOM: what is tried, and what tries it, in a room that debootstrap makes
put() {
    local file=$1 room=$2
    if [ -n "${DEBIAN:-}" ]; then
        cp -a "$DEBIAN" "$room"
    else
        needs debootstrap
        debootstrap --variant=minbase "$suite" "$room" ${MIRROR:+"$MIRROR"} >"$work/debootstrap.log" || { tail "$work/debootstrap.log" >&2; exit 1; }
    fi
    mkdir -p "$room/try/tools" "$room/try/recorder/out" # golden.py looks for the recorder there
    ln -s /usr/bin "$room/try/recorder/out/bin"
    cp "$file" "$room/try/"
    cp "$top/tools/golden.py" "$room/try/tools/"
    cp "$top/bindings/examples/cpp/lost_update.cpp" "$room/try/"
    cat >"$room/try/CMakeLists.txt" <<'CMAKE'
cmake_minimum_required(VERSION 3.16)
project(try LANGUAGES CXX)
find_package(velodrome REQUIRED)
foreach(way velodrome shared)
    add_executable(by_${way} lost_update.cpp)
    target_link_libraries(by_${way} PRIVATE velodrome::${way})
endforeach()
CMAKE
    cat >"$room/try/atomic.c" <<'SOURCE'
#include <velodrome_atomic.h>
int main(void) {
    VELODROME_ATOMIC("all of it");
    return 0;
}
SOURCE
    cat >"$room/try/try.sh" <<'SCRIPT'
set -e
cd /try
export DEBIAN_FRONTEND=noninteractive
step() { echo "-- $*"; }
get() { apt-get -qq -o Dpkg::Use-Pty=0 --no-install-recommends install "$@" >/dev/null; }
apt-get -qq update
case $1 in
    *.deb)
        step "apt install ./$1"
        prefix=/usr
        get "./$1"
        ;;
    *)
        step "tar, as docs/IN_CI.md has it"
        prefix=/root/velodrome
        get python3 binutils g++
        tar xz -C /root --one-top-level=velodrome --strip-components=1 <"$1"
        ln -sfn $prefix/bin recorder/out/bin
        export PATH=$prefix/bin:$PATH PKG_CONFIG_PATH=$prefix/lib/pkgconfig CMAKE_PREFIX_PATH=$prefix
        ;;
esac
step "velodrome-report --version"
velodrome-report --version | tee built
grep -q "^commit [0-9a-f]" built
grep -q "^toolchain ." built
grep -qx "$(velodrome --version)" built
step "man pages, completions, the other commands"
gzip -t $prefix/share/man/man1/velodrome{,-check,-record,-report,-import}.1.gz
bash -c "source $prefix/share/bash-completion/completions/velodrome; complete -p velodrome" >/dev/null
velodrome-import --help >/dev/null
velodrome-record --help >/dev/null
step "the sessions of its pages"
doc=$prefix/share/doc/velodrome
python3 tools/golden.py "$(command -v velodrome)" $doc/README.md $doc/report/README.md $doc/docs/{QUICK_START,IN_CI,FORMATS}.md
step "velodrome_atomic.h"
gcc -I$prefix/include atomic.c -o atomic
./atomic
get pkgconf cmake make python3-pip
step "pkg-config"
g++ -std=c++17 lost_update.cpp $(pkg-config --cflags --libs velodrome) -o by_pkg_config
step "CMake"
cmake -S . -B build >/dev/null
cmake --build build >/dev/null
for program in by_pkg_config build/by_velodrome build/by_shared; do
    status=0
    ./$program >said || status=$?
    [ $status = 3 ]
    grep -q "not atomic: transfer" said
done
step "the wheel"
pip3 -q install --break-system-packages --no-index $prefix/share/velodrome/velodrome-*.whl 2>/dev/null
python3 - <<'PYTHON'
import velodrome
with velodrome.session() as run:
    velodrome.Var(1, "x").set(2)
print(velodrome.__version__, run.outcome)
assert run.outcome.clean
PYTHON
case $1 in
    *.deb)
        step "apt remove"
        apt-get -qq -o Dpkg::Use-Pty=0 remove velodrome >/dev/null
        test ! -e /usr/lib/velodrome
        test ! -e /usr/bin/velodrome-record
        ;;
esac
SCRIPT
}

try_file() {
    local room=$work/debian
    needs chroot
    put "$1" "$room"
    mount -t proc proc "$room/proc"
    chroot "$room" bash /try/try.sh "$(basename "$1")" || { echo "package: $1 failed" >&2; return 1; }
    echo "package: $1 passed"
}

clean() {
    umount "$work/debian/proc" 2>/dev/null || true
    rm -rf "$work"
}

asked=package proof=proved
case ${1:-} in
    '') ;;
    --unproved) proof="not proved" ;;
    --built) proof="as it was found" ;;
    --try) asked=try_file ;;
    *) sed -n '4,8s/^# *//p' "$0" >&2; exit 2 ;;
esac
if [ "$asked" = try_file ] && [ ! -f "${2:-}" ]; then
    echo "package: --try wants a package or a tarball" >&2
    exit 2
fi
work=$(mktemp -d)
trap clean EXIT
"$asked" ${2:+"$2"}
