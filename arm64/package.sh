#!/bin/sh
# Packs the programs and the library for 64-bit ARM Linux into one tar, and tries them under qemu.
#
#     ./package.sh --target aarch64 [FOLDER]        as in: ./package.sh --target aarch64 /tmp
#
# It writes counterlab-VERSION-aarch64_linux.tar.gz and its checksum into FOLDER, or here. It takes
# the kit (`rt version`), a compiler for ARM and qemu-user; CROSS names the compiler's tools, if not
# aarch64-linux-gnu-. LINK=-static makes programs that need no C library on the board (glibc is then
# in them, whose licence asks for more than this project's). What is not built yet is proved and
# built first, as install.sh does; then each crate is proved anew for this target, over the
# libraries that are there: some twenty minutes of one processor, or four where crates/NAME/out
# keeps what was checked.
#
# The tar has the programs (bin), their manual pages (share/man), the library with a heap over
# malloc (lib/libcounterlab.a) and without one (lib/libcounterlab_c.a), its header (include), what C
# code stands in for the kit's (arm64), first programs (examples), and the verdict lines (VERDICTS).
# If a trial fails there is no tar. Nothing ran on a real ARM machine.
set -eu
[ $# -le 1 ] || { echo "usage: ./package.sh --target aarch64 [FOLDER]" >&2; exit 2; }
folder=$(cd "${1:-.}" && pwd)
cd "$(dirname "$0")/.."
cross=${CROSS:-aarch64-linux-gnu-}
target=aarch64-unknown-linux-gnu
fail() { echo "package.sh --target aarch64: $*" >&2; exit 1; }
need() { command -v "$1" > /dev/null || fail "there is no $1 here: $2"; }
need rt "it comes with the kit"
need "${cross}gcc" "on Debian install gcc-aarch64-linux-gnu, or name another by CROSS"
need "${cross}ar" "it comes with the compiler"
need qemu-aarch64 "on Debian install qemu-user; nothing is packed untried"
kit=$(dirname "$(rt doc)")
name=counterlab-$(cat VERSION)-aarch64_linux
room=$(mktemp -d)
trap 'rm -rf "$room"' EXIT
at=$room/$name
mkdir -p "$at/bin" "$at/lib" "$at/include" "$at/arm64" "$at/examples" "$at/share/man/man1"
echo 'int main(void) { return 0; }' > "$room/empty.c"
"${cross}gcc" ${LINK:-} -o "$room/empty" "$room/empty.c" 2> /dev/null ||
    fail "${cross}gcc links no program: on Debian install libc6-dev-arm64-cross"
root=$("${cross}gcc" -print-sysroot)
[ -e "${root:=/}/lib/ld-linux-aarch64.so.1" ] || root=/usr/aarch64-linux-gnu
arm() { qemu-aarch64 -L "$root" "$@"; }
arm "$room/empty" || fail "qemu-aarch64 runs no program of ${cross}gcc"

./install.sh "$room/x86" > /dev/null # proves and builds what is not there

build() { # a crate, into a file: proved for this target, and compiled by the kit's clang
    crate=$1
    to=$2
    shift 2
    for library in crates/*/out/rlib; do
        set -- "$@" -L "dependency=$PWD/$library"
    done
    for used in core std $(sed -n "s/^$crate\( staticlib\)\{0,1\}: *//p" crates.txt); do
        rlib=$PWD/crates/$used/out/rlib/$used.rlib
        [ -d "$rlib" ] || rlib=$kit/rlibs/$used.rlib
        set -- "$@" --extern "$used=$rlib"
    done
    echo "building $crate for ARM: it is proved for this target first" >&2
    (cd "crates/$crate" && rattle build --crate-name "$crate" "$@" -L "dependency=$kit/rlibs" \
        --antt-project "$kit/rattle/logic/antt-project.json" --logic-built "$kit/logic_built" \
        --incremental out/incremental --toolchain "$kit/toolchain" --target "$target" \
        -o "$to") > "$room/log" 2>&1 || { tail -n 5 "$room/log" >&2; fail "$crate is not built"; }
    line=$(grep "^logic=proved .*target=$target" "$room/log") || fail "$crate: there is no verdict"
    echo "$crate: $line" >> "$at/VERDICTS"
}

# ---- the library, with a heap and without

build counterlab_c "$at/lib/libcounterlab_c.a" --crate-type staticlib src/lib.rt
c() { "${cross}gcc" -std=c11 -O2 -I bindings "$@"; }
c -DLIBRARY -fPIC -c -o "$room/heap.o" arm64/system.c
cp "$at/lib/libcounterlab_c.a" "$at/lib/libcounterlab.a"
"${cross}ar" q "$at/lib/libcounterlab.a" "$room/heap.o"
cp bindings/counterlab.h "$at/include"
cp arm64/system.c arm64/bare.c bench/library/arena.c "$at/arm64"
cp -r examples/library examples/udp "$at/examples"
cp LICENSE VERSION "$at"

# ---- the programs

c -c -o "$room/shim.o" arm64/system.c
for program in counterlab halvinglab attack choose draw states sweep trace; do
    [ -d "crates/$program" ] || continue
    case $program in
    counterlab | halvinglab) as=$program ;;
    *) as=counterlab-$program ;;
    esac
    build "$program" "$room/$program.o" src/main.rt
    "${cross}gcc" ${LINK:-} -s -o "$at/bin/$as" "$room/$program.o" "$room/shim.o"
    cp "man/$as.1" "$at/share/man/man1"

    # its stored run, and what it says of itself
    input=crates/$program/stdin
    [ -f "$input" ] || input=/dev/null
    words=$(cat "crates/$program/args" 2> /dev/null || true)
    arm "$at/bin/$as" $words < "$input" > "$room/stdout" 2> "$room/told" ||
        fail "$as ended with $?: $(cat "$room/told")"
    cmp "$room/stdout" "crates/$program/stdout" || fail "$as wrote other bytes"
    [ "$program" = counterlab ] || [ "$(arm "$at/bin/$as" --version | cut -d ' ' -f 2)" = \
        "$(cat VERSION)" ] || fail "$as says another version than VERSION"
done
echo "the programs write under qemu what their stored runs have"

# ---- the library tried

lib=$at/lib/libcounterlab_c.a
c -o "$room/first" examples/library/four_nodes.c "$at/lib/libcounterlab.a"
arm "$room/first" > "$room/rows"
if command -v gcc > /dev/null; then
    gcc -I bindings -o "$room/first.x86" examples/library/four_nodes.c \
        "$room/x86/lib/libcounterlab.a"
    "$room/first.x86" | cmp - "$room/rows" || fail "four_nodes.c prints other rows than on x86-64"
fi
c -ffreestanding -fno-tree-loop-distribute-patterns -nostdlib -static -o "$room/bare" \
    arm64/bare.c bench/library/arena.c "$lib" -lgcc
arm "$room/bare" > "$room/said" || fail "the library fails with no C library: $(cat "$room/said")"
echo "the library's first program runs, and one with no C library: $(cat "$room/said")"
if command -v python3 > /dev/null; then
    python3 bench/library/try.py "$lib" --compiler "${cross}gcc ${LINK:-}" \
        --runner "qemu-aarch64 -L $root" --heap arm64/system.c
fi

# ---- the same files give the same tar

(cd "$at" && find . -type f ! -name SHA256SUMS | LC_ALL=C sort | xargs sha256sum > SHA256SUMS)
stamp=$(git log -1 --format=@%ct 2> /dev/null || echo @0)
tar -C "$room" --sort=name --owner=0 --group=0 --numeric-owner --mtime="$stamp" -cf - "$name" |
    gzip -9n > "$room/$name.tar.gz"
(cd "$room" && sha256sum "$name.tar.gz" > "$name.tar.gz.sha256")
mv "$room/$name.tar.gz" "$room/$name.tar.gz.sha256" "$folder"
echo "wrote $folder/$name.tar.gz"
[ -n "${LINK:-}" ] || "${cross}objdump" -T "$at"/bin/* | grep -o 'GLIBC_[0-9.]*' | sort -Vu |
    tail -n 1 | sed 's/^/it wants a C library from /; s/$/ on/'
