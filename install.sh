#!/bin/sh
# Installs counterlab and the programs beside it, their manual pages, and the library of a node.
#
#     ./install.sh PREFIX               as in: ./install.sh ~/.local
#     ./install.sh --uninstall PREFIX   removes what it installed, and folders that are then empty
#     ./install.sh --help
#
# It takes the kit (`rt version`), the toolchain that proves and builds; without it take the tar
# that package.sh makes. What is not built yet, or is older than its sources, is proved and built first,
# from nothing an hour and a quarter of one processor. All is built before anything is installed.
#
# bin/ has the programs; those beside counterlab and halvinglab as counterlab-NAME, since other
# packages have programs of those names too. lib/ has the library, static and, if there is a C
# compiler, shared, and its file for pkg-config; include/ its header; share/man/ the manual pages;
# share/counterlab/ the module for Python, the crate for Rust, and `installed`, a list of all this.
set -eu
umask 022
top=$(cd "$(dirname "$0")" && pwd)
usage() { sed -n '2,/^set -eu$/{/^#/s/^# \{0,1\}//p}' "$top/install.sh"; }
fail() { echo "install.sh: $*" >&2; exit 1; }
wrong() {
    echo "usage: ./install.sh PREFIX, ./install.sh --uninstall PREFIX, or --help" >&2
    exit 2
}
verb=install
case ${1:-} in
--help) usage; exit 0 ;;
--uninstall) verb=uninstall; shift ;;
esac
[ $# -eq 1 ] || wrong
case $1 in
'' | -*) wrong ;;
/*) prefix=$1 ;;
*) prefix=$PWD/$1 ;;
esac
cd "$top"
list=$prefix/share/counterlab/installed

remove() { # the files that are named, one a line, below the prefix, and folders that are then empty
    while read -r file; do
        case $file in
        '') continue ;;
        /* | *..* | .) fail "$list names $file, which it never wrote: nothing more is removed" ;;
        esac
        [ ! -d "$prefix/$file" ] || [ -L "$prefix/$file" ] ||
            fail "$list names the folder $file, which it never wrote: nothing more is removed"
        rm -f "$prefix/$file"
        folder=$(dirname "$file")
        while [ "$folder" != . ] && rmdir "$prefix/$folder" 2> /dev/null; do
            folder=$(dirname "$folder")
        done
    done
}

if [ $verb = uninstall ]; then
    [ -f "$list" ] || fail "$list is not here: nothing is installed in $prefix"
    names=$(cat "$list")
    echo "$names" | remove
    echo "removed from $prefix"
    exit 0
fi

command -v ar > /dev/null || fail "there is no ar here, which makes the library"
command -v rt > /dev/null ||
    fail "the kit is not here (rt); without it take a tar that package.sh made"
page=$(rt doc) # in the kit's folder

# ---- what is built: a crate's own name and those of the crates below it, from crates.txt

below() {
    awk -v asked="$1" '
        { sub(/#.*/, "") }
        /:/ { name = $1; sub(/:.*/, "", name); uses[name] = $0; sub(/[^:]*:/, "", uses[name]) }
        END {
            left = asked
            while (left != "") {
                split(left, names); name = names[1]; sub(/^ *[^ ]+ */, "", left)
                if (name in seen || !(name in uses)) continue
                seen[name] = 1; print name; left = left " " uses[name]
            }
        }' crates.txt
}

is_fresh() { # a crate's built file, that no source of it or of a crate below is newer than
    [ -f "$2" ] || return 1
    for used in $(below "$1"); do
        # folders too: one from which a file was taken is newer
        [ -z "$(find crates.txt HANDLES "crates/$used/src" "crates/$used/specs" \
            "crates/$used/proofs" -newer "$2" 2> /dev/null | head -n 1)" ] || return 1
    done
}

build() { # a crate, its built file, and the words of rt that build it
    crate=$1
    made=$2
    shift 2
    is_fresh "$crate" "$made" && return
    if [ -f "$made" ]; then
        echo "$crate is older than its sources: it is proved and built anew" >&2
    else
        echo "building $crate: it is proved first" >&2
    fi
    # an older one must not be taken for what is built now; a program's own status says nothing
    rm -f "$made"
    (cd "crates/$crate" && rt "$@" > /dev/null) || true
    [ -f "$made" ] || fail "$crate is not built: run rt $1 in crates/$crate to see why"
}

programs=
for program in counterlab halvinglab attack choose draw states sweep trace; do
    [ -d "crates/$program" ] || continue
    build "$program" "crates/$program/out/$program" run -- --version
    programs="$programs $program"
done
archive=crates/counterlab_c/out/libcounterlab_c.a
build counterlab_c "$archive" lib

# ---- the library: one archive of both, it and the kit's three functions over malloc, realloc and
# free. A script of ar can name no path with a blank or a comma, so it has a folder of its own.

room=$(mktemp -d)
trap 'rm -rf "$room"' EXIT
cp "$archive" "$(dirname "$page")/c/liblibc_c.a" "$room"
(cd "$room" && ar -M) <<'AR'
CREATE libcounterlab.a
ADDLIB libcounterlab_c.a
ADDLIB liblibc_c.a
SAVE
END
AR
version=$(cat VERSION)
shared=libcounterlab.so.${version%%.*}
if command -v cc > /dev/null; then
    cc -shared -o "$room/$shared" -Wl,-soname,"$shared" -Wl,-z,defs -Wl,--whole-archive \
        "$room/libcounterlab.a" -Wl,--no-whole-archive || fail "cc makes no shared library"
else
    echo "there is no C compiler (cc): the shared library is left out" >&2
fi
cat > "$room/counterlab.pc" <<'PC'
prefix=${pcfiledir}/../..
libdir=${prefix}/lib
includedir=${prefix}/include

Name: counterlab
Description: the step of a node of a self-stabilising Byzantine synchronous counter
Libs: -L${libdir} -l:libcounterlab.a
Cflags: -I${includedir}
PC
echo "Version: $version" >> "$room/counterlab.pc"

# ---- nothing was written so far; what an older version installed and this one does not goes

: > "$room/installed"
put() { # mode, file, place below the prefix
    install -D -m "$1" "$2" "$prefix/$3"
    echo "$3" >> "$room/installed"
}
for program in $programs; do
    case $program in
    counterlab | halvinglab) name=$program ;;
    *) name=counterlab-$program ;;
    esac
    put 755 "crates/$program/out/$program" "bin/$name"
    put 644 "man/$name.1" "share/man/man1/$name.1"
done
put 644 "$room/libcounterlab.a" lib/libcounterlab.a
if [ -f "$room/$shared" ]; then
    put 755 "$room/$shared" "lib/$shared"
    ln -sf "$shared" "$prefix/lib/libcounterlab.so"
    echo lib/libcounterlab.so >> "$room/installed"
fi
put 644 "$room/counterlab.pc" lib/pkgconfig/counterlab.pc
put 644 bindings/counterlab.h include/counterlab.h
put 644 bindings/counterlab.py share/counterlab/python/counterlab.py
for file in Cargo.toml build.rs src/lib.rs; do
    put 644 "bindings/rust/$file" "share/counterlab/rust/$file"
done
echo share/counterlab/installed >> "$room/installed"
: > "$room/gone"
[ ! -f "$list" ] || grep -vxF -f "$room/installed" "$list" > "$room/gone" || true
install -D -m 644 "$room/installed" "$list"
remove < "$room/gone"
echo "installed in $prefix"
