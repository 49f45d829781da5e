#!/bin/sh
# Installs what the checks of this repository need besides the kit and cargo, from the packages of
# Debian. Does nothing, and prints nothing, where all of it is there.
set -e

missing=

# A module of Python by its name, with the package that has it.
need_module() {
    /usr/bin/python3 -c "import $1" 2>/dev/null || missing="$missing $2"
}

# A command by its name, with the package that has it.
need_command() {
    command -v "$1" >/dev/null || missing="$missing $2"
}

need_module black black
need_module flake8 flake8
need_module mypy mypy
need_module pytest python3-pytest
need_module yaml python3-yaml
need_module psycopg python3-psycopg
need_command chromium chromium
need_command firefox-esr firefox-esr
need_command groff groff
need_command node nodejs
need_command shellcheck shellcheck
need_command tmux tmux
need_command unshare util-linux
need_command xmllint libxml2-utils
[ -n "$(ls /usr/lib/postgresql/*/bin/initdb 2>/dev/null)" ] || need_command initdb postgresql

[ -z "$missing" ] && exit 0

apt-get update
# shellcheck disable=SC2086 # The names are words.
DEBIAN_FRONTEND=noninteractive apt-get install --yes --no-install-recommends $missing
