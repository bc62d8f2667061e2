#!/bin/sh
# Installs this folder: install.sh PREFIX. Removes what it has installed: install.sh --uninstall PREFIX.
# Checks the files against SHA256SUMS before installing them. PREFIX/share/hordguli/installed lists the installed files and new folders.
# Nothing outside PREFIX is installed or removed, so no folder in it may be a symbolic link that leads outside.
set -eu
LC_ALL=C
export LC_ALL
usage() {
    echo "usage: install.sh PREFIX"
    echo "       install.sh --uninstall PREFIX"
    exit 2
}
task=install
if [ "${1-}" = --uninstall ]; then
    task=uninstall
    shift
fi
if [ $# != 1 ]; then usage; fi
case $1 in
    '' | -*) usage ;;
    /*) prefix=$1 ;;
    *) prefix=${PWD%/}/$1 ;;
esac
while [ "$prefix" != "${prefix%/}" ]; do prefix=${prefix%/}; done

program=install.sh root='' libdir=$prefix zshdir=$prefix
CDPATH='' cd -- "$(dirname "$0")"
# shellcheck source=packaging/installed_list.sh
. ./installed_list.sh
entries=$(mktemp)
trap 'rm -f "$entries"' EXIT

if [ $task = uninstall ]; then
    remove_listed
    exit
fi

files() { find bin include lib share ! -type d | sort; }

sha256sum --quiet --check SHA256SUMS
read_list
files | while IFS= read -r file; do check_folder "$prefix/${file%/*}"; done
files | while IFS= read -r file; do
    folder=$prefix/${file%/*}
    make_folder "$folder"
    # (a file may be in use, so it is replaced and not overwritten)
    cp -P "$file" "$folder/.new.$$"
    mv -f "$folder/.new.$$" "$prefix/$file"
    record "$prefix/$file"
done
write_list
printf 'install.sh: the files are in %s\n' "${prefix:-/}"
