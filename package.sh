#!/bin/sh
# Packs what install.sh installs into one tar, for a machine that has no kit.
#
#     ./package.sh [FOLDER]                       as in: ./package.sh /tmp
#     ./package.sh --target aarch64 [FOLDER]      for 64-bit ARM: see arm64/package.sh
#
# It writes counterlab-VERSION-x86_64-linux.tar.gz and its checksum into FOLDER, or here. The tar
# has one folder with the programs (bin), their manual pages (share/man), the library and its header
# (lib, include), bindings, examples, docs, README.md, CHANGELOG.md, LICENSE and VERSION, what the
# commands of docs/ name (bench, crates), and the checksums of all these (SHA256SUMS). The programs
# run on any x86-64 Linux whose C library is no older than the one that the line at the end names:
# unpack it anywhere.
#
# It is tried before it is left: the programs in an empty root that has the C library alone, if this
# machine lets one be entered; the quick commands of the pages in its folder, if there is python3;
# and the library under a first program, if there is gcc. If one of these fails there is no tar.
set -eu
umask 022
usage() {
    echo "usage: ./package.sh [FOLDER], or ./package.sh --target aarch64 [FOLDER]" >&2
    exit 2
}
if [ "${1:-}" = --target ]; then
    [ "${2:-}" = aarch64 ] || usage
    shift 2
    exec "$(dirname "$0")/arm64/package.sh" "$@"
fi
[ $# -le 1 ] || usage
folder=$(cd "${1:-.}" && pwd)
cd "$(dirname "$0")"
name=counterlab-$(cat VERSION)-x86_64-linux
room=$(mktemp -d)
trap 'rm -rf "$room"' EXIT

./install.sh "$room/$name" > /dev/null
cp LICENSE README.md CHANGELOG.md VERSION "$room/$name"
cp -r bindings docs examples "$room/$name"
# and what the commands of docs/ name: inputs, bench/, and each program as crates/NAME/out/NAME
mkdir -p "$room/$name/crates/try_examples"
cp -r crates/try_examples/data "$room/$name/crates/try_examples"
git archive HEAD bench 2> /dev/null | tar -xf - -C "$room/$name" || cp -r bench "$room/$name"
for program in "$room/$name"/bin/*; do
    crate=$(basename "$program")
    crate=${crate#counterlab-}
    mkdir -p "$room/$name/crates/$crate/out"
    ln -s "../../../bin/$(basename "$program")" "$room/$name/crates/$crate/out/$crate"
    [ ! -s "crates/$crate/stdin" ] || cp "crates/$crate/stdin" "$room/$name/crates/$crate"
    [ ! -d "crates/$crate/data" ] || cp -r "crates/$crate/data" "$room/$name/crates/$crate"
done
find "$room/$name" -name __pycache__ -prune -exec rm -rf {} +
(cd "$room/$name" && find . -type f ! -name SHA256SUMS | LC_ALL=C sort |
    xargs sha256sum > SHA256SUMS)

# the same files give the same tar
stamp=$(git log -1 --format=@%ct 2> /dev/null || echo @0)
tar -C "$room" --sort=name --owner=0 --group=0 --numeric-owner --mtime="$stamp" -cf - "$name" |
    gzip -9n > "$room/$name.tar.gz"
(cd "$room" && sha256sum "$name.tar.gz" > "$name.tar.gz.sha256")

# ---- a look at it, in a root with nothing but the C library

root=$room/root
mkdir "$root"
tar -xzf "$room/$name.tar.gz" -C "$root"
(cd "$root/$name" && sha256sum --quiet -c SHA256SUMS)
for program in "$root/$name"/bin/*; do
    ldd "$program" | grep -o '/[^ ]*'
done | sort -u | while read -r library; do
    install -D "$library" "$root$library"
done
cp crates/counterlab/stdin "$root/input"

enter() { # runs a program of the package in that root
    program=$1
    shift
    if [ "$(id -u)" = 0 ]; then
        chroot "$root" "/$name/bin/$program" "$@"
    else
        unshare -r chroot "$root" "/$name/bin/$program" "$@"
    fi
}

if enter counterlab-choose --version > /dev/null 2>&1; then
    # counterlab has no word for its version: its stored run below stands for it
    for program in halvinglab counterlab-attack counterlab-choose counterlab-draw counterlab-states \
        counterlab-sweep counterlab-trace; do
        [ "$(enter $program --version | cut -d ' ' -f 2)" = "$(cat VERSION)" ] ||
            { echo "$program says another version than VERSION" >&2; exit 1; }
    done
    enter counterlab $(cat crates/counterlab/args) < "$root/input" | cmp - crates/counterlab/stdout
    enter counterlab demo 7 | enter counterlab-draw > "$root/demo.svg"
    enter counterlab-choose 3 1000 14 plan | enter halvinglab plan > "$root/table"
    echo "the programs run in an empty root"
else
    echo "not tried: no other root can be entered here"
fi
at=$root/$name
if command -v python3 > /dev/null; then
    (cd "$at" && python3 bench/tools/pages.py --quick)
fi
if command -v gcc > /dev/null; then
    gcc -I "$at/include" -o "$room/first" "$at/examples/library/four_nodes.c" \
        "$at/lib/libcounterlab.a"
    "$room/first" > "$room/rows"
    echo "the library links, and its first program runs"
fi
mv "$room/$name.tar.gz" "$room/$name.tar.gz.sha256" "$folder"
echo "wrote $folder/$name.tar.gz"
if command -v objdump > /dev/null; then
    objdump -T "$root/$name"/bin/* | grep -o 'GLIBC_[0-9.]*' | sort -Vu | tail -n 1 |
        sed 's/^/it wants a C library from /; s/$/ on/'
fi
