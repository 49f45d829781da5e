#!/bin/sh
# Installs the built program and the front end below a folder:
#
#     front/install.sh ~/.local
#
# PREFIX/bin gets rezovamy, rezovamy-runs, session_from_libtest and junit_xml, PREFIX/lib/rezovamy
# their package, and PREFIX/share man pages, completions for bash, zsh and fish, the licences, and
# the pages on the command line and the formats. An older installation at the same place is
# replaced. All links are relative, so PREFIX may be moved.
#
# The program is the one that REZOVAMY names. If it names none, it is the one that was built in this
# clone or the one of the package in dist/, whichever file is newer.
set -eu

STARTERS="rezovamy-runs session_from_libtest junit_xml"
EXAMPLE="front/install.sh ~/.local"

# shellcheck source-path=SCRIPTDIR source=built_program.sh
. "$(dirname "$0")/built_program.sh"
if ! python3 -c 'import sys; sys.exit(sys.version_info < (3, 11))' 2>/dev/null; then
    fault "Python 3.11 or newer is wanted: put it on the path as python3"
fi

# Finds the package in dist/ for this system. `package` is empty if the program isn't taken from it.
find_package() {
    system=$(uname -s | tr '[:upper:]' '[:lower:]')-$(uname -m)
    for package in "$top"/dist/rezovamy-*-"$system".tar.gz ""; do
        if [ -f "$package" ]; then break; fi
    done
    if [ -n "${REZOVAMY:-}" ] || [ -n "$(find "$program" -newer "$package" 2>/dev/null)" ]; then
        package=
    fi
}

# Ends the script if the package isn't as it was made.
check_package() {
    (cd "$top/dist" && sha256sum -c "${package##*/}.sha256") >/dev/null 2>&1 ||
        fault "$package isn't as it was made: get it again with git checkout HEAD -- dist"
}

# Puts the program beside the place where it comes to stand.
stage_program() {
    if [ -n "$package" ]; then
        name=${package##*/}
        tar -xzOf "$package" "${name%.tar.gz}/bin/rezovamy" >"$aside" || return
    else
        cp "$program" "$aside" || return
    fi
    chmod 755 "$aside"
}

# Puts the starters and their package beside the place where they come to stand.
stage_package() {
    for starter in $STARTERS; do
        cp "$top/front/$starter" "$staged/" || return
    done
    mkdir "$staged/src" &&
        cp -R "$top/front/src/rezovamy_runs" "$staged/src/" &&
        find "$staged" -depth -name __pycache__ -exec rm -rf {} + &&
        ln -s ../../bin/rezovamy "$staged/rezovamy" &&
        chmod -R u+rwX,go+rX "$staged"
}

# Writes man pages and completions. What is in the current folder is no package of ours.
write_manuals() {
    PYTHONPATH=$top/front/src PYTHONDONTWRITEBYTECODE=1 \
        python3 -P -m rezovamy_runs.manuals "$prefix"
}

# Puts all that is installed beside the places where it comes to stand.
stage() {
    stage_package &&
        stage_program &&
        cp "$top/LICENSE-MIT" "$top/LICENSE-APACHE" "$prefix/share/licenses/rezovamy/" &&
        cp "$top/docs/CLI.md" "$top/docs/FORMATS.md" "$top/docs/FRONT_END.md" \
            "$prefix/share/doc/rezovamy/" &&
        write_manuals
}

# Lets the new installation take the place of an older one.
put() {
    mv -f "$aside" "$prefix/bin/rezovamy" &&
        rm -rf "$prefix/lib/rezovamy" &&
        mv "$staged" "$prefix/lib/rezovamy" || return
    for starter in $STARTERS; do
        ln -sf "../lib/rezovamy/$starter" "$prefix/bin/$starter" || return
    done
}

# Says why a step failed, by the last line that it printed.
failed() {
    fault "$(printf '%s' "$said" | tail -n 1); make room, or name another folder"
}

find_package
if [ -n "$package" ]; then check_package; else demand_program; fi
said=$(mkdir -p "$1/bin" "$1/lib" "$1/share/licenses/rezovamy" "$1/share/doc/rezovamy" 2>&1) ||
    failed
prefix=$(cd "$1" && pwd -P)
staged=$prefix/lib/.rezovamy.$$
aside=$prefix/bin/.rezovamy.$$
trap 'rm -rf "$staged" "$aside"' EXIT
trap 'exit 130' INT
trap 'exit 143' TERM
said=$(mkdir "$staged" 2>&1) || failed
said=$(stage 2>&1) || failed
if [ -n "$package" ] && ! "$aside" --version >/dev/null 2>&1; then
    fault "the program of $package doesn't run on this system: $BUILD"
fi
said=$(put 2>&1) || failed
echo "$prefix/bin has rezovamy, rezovamy-runs, session_from_libtest and junit_xml"
case :$PATH: in
    *:"$prefix/bin":*) ;;
    *) echo "put it on the path: PATH=$prefix/bin:\$PATH" ;;
esac
