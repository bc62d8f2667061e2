#!/bin/sh
# Runs the program hordguli with the terminal's width in COLUMNS, unless COLUMNS is set. The terminal is standard output, standard error or
# /dev/tty.
case $0 in */*) folder=${0%/*} ;; *) folder=. ;; esac
if [ -L "$0" ]; then
    folder=$(readlink -f "$0")
    folder=${folder%/*}
fi
if [ -z "${COLUMNS-}" ]; then
    if [ -t 1 ]; then
        { size=$(stty size <&3 2> /dev/null); } 3>&1
    elif [ -t 2 ]; then
        size=$(stty size <&2 2> /dev/null)
    else
        size=$({ stty size < /dev/tty; } 2> /dev/null)
    fi
    case ${size#* } in
        '' | 0 | *[!0-9]*) ;;
        *) export COLUMNS="${size#* }" ;;
    esac
fi
exec "$folder/../lib/hordguli/hordguli" "$@"
