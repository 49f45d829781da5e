#!/bin/sh
# Makes an archive of the built program and the front end, which runs on a machine without the kit
# and without this clone:
#
#     front/package.sh FOLDER
#
# FOLDER gets rezovamy-VERSION-SYSTEM-MACHINE.tar.gz, which holds what front/install.sh installs,
# the licences, a README and the checksums of all files, and beside it its own checksum. The path of
# the archive is printed. The program is the one that REZOVAMY names, or else the one that was built
# in this clone. The same files give the same archive, whenever and wherever it is made.
set -eu
export LC_ALL=C

LIBRARY='s/^[[:space:]]*\([^ /]*\.so[^ ]*\) =>.*/\1/p'
ADVICE="make room, or name another folder"
EXAMPLE="front/package.sh /tmp"

# shellcheck source-path=SCRIPTDIR source=built_program.sh
. "$(dirname "$0")/built_program.sh"
demand_program
version=$("$program" --version) ||
    fault "$program doesn't run here: build it again, or name another in REZOVAMY"
version=$(printf '%s\n' "$version" | sed -n 's/^rezovamy //p')
system=$(uname -s | tr '[:upper:]' '[:lower:]')
name=rezovamy-$version-$system-$(uname -m)
libraries=$(ldd "$program" 2>/dev/null | sed -n "$LIBRARY" | sort | tr '\n' ' ')
glibc=$(grep -ao 'GLIBC_[0-9.]*' "$program" | sort -uV | tail -n 1) || true

# Writes what the package says of itself.
describe() {
    cat >"$staged/$name/README" <<END
Rezovamy $version records test runs of Rust projects, and shows what came of them.

Put the folder bin on the path, wherever this folder lies:

    PATH=\$PWD/bin:\$PATH
    rezovamy-runs --help

bin/rezovamy runs on $system ($(uname -m)) with these libraries:
${libraries:-none }${glibc:+(the C library with $glibc or newer)}.
The other programs need Python 3.11 or newer. share has man pages \
(man -l share/man/man1/rezovamy-runs.1) and completions for
bash, zsh and fish. To install all of it, copy bin, lib and share into a folder that has such \
folders, as ~/.local, with cp -RP.

sha256sum -c SHA256SUMS tells whether each file is as it was packed.
END
}

# Writes the checksums of all files.
sums() {
    cd "$staged/$name" || return
    find . -type f ! -name SHA256SUMS | sort |
        while read -r file; do sha256sum "$file" || return; done >"$staged/sums" &&
        mv "$staged/sums" SHA256SUMS
}

# Makes the archive and its checksum.
pack() {
    REZOVAMY=$program "$top/front/install.sh" "$staged/$name" >/dev/null &&
        cp "$top/LICENSE-MIT" "$top/LICENSE-APACHE" "$staged/$name/" &&
        describe &&
        (sums) &&
        tar --format=ustar --sort=name --mode=u=rwX,go=rX --owner=0 --group=0 --numeric-owner \
            --mtime=@0 -C "$staged" -cf "$staged/tar" "$name" &&
        gzip -9n "$staged/tar" &&
        mv "$staged/tar.gz" "$staged/$name.tar.gz" &&
        (cd "$staged" && sha256sum "$name.tar.gz" >"$name.tar.gz.sha256") &&
        mv "$staged/$name.tar.gz" "$staged/$name.tar.gz.sha256" "$folder/"
}

# Says why a step failed, by the last line that it printed.
failed() {
    line=$(printf '%s' "${said#install.sh: }" | tail -n 1)
    fault "${line%; "$ADVICE"}; $ADVICE"
}

said=$(mkdir -p "$1" 2>&1) || failed
folder=$(cd "$1" && pwd -P)
staged=$folder/.package.$$
trap 'rm -rf "$staged"' EXIT
trap 'exit 130' INT
trap 'exit 143' TERM
said=$(mkdir "$staged" 2>&1) || failed
said=$(pack 2>&1) || failed
echo "$folder/$name.tar.gz"
