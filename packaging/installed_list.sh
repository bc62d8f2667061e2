# shellcheck shell=sh
# The list of installed files, PREFIX/share/hordguli/installed. install.sh and tools/install source these functions, which need only a
# POSIX shell and coreutils.
#
# Each line is a path relative to the prefix. Folders that the installation made end in "/", and "./" is the prefix. Paths in a LIBDIR or
# ZSHDIR outside the prefix are absolute. Older lists have only absolute paths.
#
# Nothing outside these folders is removed. A list is refused as a whole, before anything is removed, if an entry is not such a path, or
# leads outside because of a symbolic link. The folders themselves may be symbolic links.
#
# The caller sets these variables. Folders are absolute, without a "/" at the end:
#
#   program                   the name that begins messages
#   root                      DESTDIR, or empty
#   prefix, libdir, zshdir    the folders
#   entries                   a temporary file
#
# shellcheck disable=SC2154
own=share/hordguli/installed
unset CDPATH

fail() { # MESSAGE
    printf '%s: %s\n' "$program" "$1" >&2
    exit 1
}

refuse() { # MESSAGE [ADVICE]: refuses the list
    printf '%s: %s: %s\n' "$program" "$root$prefix/$own" "$1" >&2
    fail "Nothing was changed. ${2:-If this installation was moved, or its list is damaged, delete the list and install again.}"
}

is_below() { # PATH FOLDER: whether the path is the folder, or is below it
    case $1/ in "${2%/}"/*) return 0 ;; *) return 1 ;; esac
}

real_folder() { # FOLDER: prints its path without symbolic links; fails if there is no such folder
    (cd -P -- "$1/" 2> /dev/null && pwd -P)
}

# Sets the real paths of the folders. No absolute path is below or above "none".
find_folders() {
    real_prefix=$(real_folder "$root$prefix") || real_prefix=none
    real_libdir=none
    real_zshdir=none
    # (a folder below the prefix must not lead outside the prefix)
    is_below "$libdir" "$prefix" || real_libdir=$(real_folder "$root$libdir") || real_libdir=none
    is_below "$zshdir" "$prefix" || real_zshdir=$(real_folder "$root$zshdir") || real_zshdir=none
    # (absolute entries do not begin with DESTDIR)
    other_prefix=$prefix
    if [ -z "$root" ] && [ "$real_prefix" != none ]; then other_prefix=$real_prefix; fi
}

is_inside() { # REAL: whether a real path is in one of the folders
    is_below "$1" "$real_prefix" || is_below "$1" "$real_libdir" || is_below "$1" "$real_zshdir"
}

is_above() { # PATH: whether the path is a parent of one of the folders
    is_below "$prefix" "$1" || is_below "$other_prefix" "$1" || is_below "$libdir" "$1" || is_below "$zshdir" "$1"
}

place_of() { # ENTRY: sets `place` to its path, without a "/" at the end
    case $1 in
        ./) place=$root$prefix ;;
        /*) place=$root${1%/} ;;
        *) place=$root$prefix/${1%/} ;;
    esac
}

# Sets `entry` to the current form of a line, or to nothing if the line is a parent folder of the prefix, which older lists have. Refuses
# lines that an installation does not write.
read_entry() { # LINE
    entry=$1
    for folder in "$prefix" "$other_prefix"; do
        case $1 in
            "$folder"/*)
                entry=${1#"$folder"}
                # (older lists have "//" if the prefix was given with a "/" at the end)
                while [ "$entry" != "${entry#/}" ]; do entry=${entry#/}; done
                entry=${entry:-./}
                break
                ;;
        esac
    done
    if [ "$entry" = ./ ]; then return; fi
    path=${entry%/}
    case /${path#/}/ in
        *//* | */./* | */../*) refuse "'$1' is not the path of an installed file" ;;
    esac
    case $path in
        /*)
            if is_below "$path" "$libdir" || is_below "$path" "$zshdir"; then return; fi
            if [ "$entry" != "$path" ] && is_above "$path"; then entry= && return; fi
            refuse "$path is outside $prefix" "make uninstall needs the LIBDIR and ZSHDIR of make install. If this installation was moved, delete the list and install again."
            ;;
    esac
}

check_entry() { # ENTRY: refuses the list if the entry leads outside because of a symbolic link
    case $1 in ./ | "$libdir/" | "$zshdir/") return ;; esac
    place_of "$1"
    # (a file in a folder that does not exist is not removed)
    real=$(real_folder "${place%/*}") || return 0
    is_inside "$real" && return
    refuse "$place is in $real, outside $root$prefix, because of a symbolic link" "Remove the files there yourself, or replace the link with the folder."
}

# Writes the entries of the list to the temporary file. Without a list, the file is empty.
read_list() {
    list=$root$prefix/$own
    : > "$entries"
    find_folders
    if [ ! -e "$list" ] && [ ! -L "$list" ]; then return; fi
    [ -f "$list" ] || refuse "this is not a file"
    [ "$(tr -d '\000-\011\013-\037\177' < "$list" | wc -c)" -eq "$(wc -c < "$list")" ] || refuse "this file has control characters"
    [ -z "$(tail -c 1 "$list")" ] || refuse "the end of this file is missing"
    has_own=
    while IFS= read -r line; do
        read_entry "$line"
        if [ -z "$entry" ]; then continue; fi
        if [ "$entry" = "$own" ]; then has_own=1; fi
        check_entry "$entry"
        printf '%s\n' "$entry" >> "$entries"
    done < "$list"
    [ -n "$has_own" ] || refuse "this file does not name itself"
}

# Fails if files in a folder would be outside because of a symbolic link: uninstalling would not remove them.
check_folder() { # FOLDER
    existing=$root$1
    until [ -z "$existing" ] || [ -e "$existing" ] || [ -L "$existing" ]; do existing=${existing%/*}; done
    real=$(real_folder "$existing") || fail "$existing is not a folder"
    if is_inside "$real"; then return; fi
    base=$prefix
    for folder in "$libdir" "$zshdir"; do
        if ! is_below "$1" "$base"; then base=$folder; fi
    done
    # (a folder outside may be a parent of a new prefix, LIBDIR or ZSHDIR)
    if [ "$existing" = "$root$base" ] || ! is_below "$root$base" "$existing"; then
        fail "$existing is $real, outside $root$prefix, because of a symbolic link. Choose another folder to install to."
    fi
}

record() { # PATH: adds an installed file or a new folder to the temporary file, unless it is a parent of the prefix
    case $1 in
        "$prefix/") entry=./ ;;
        "$prefix"/*) entry=${1#"$prefix"/} ;;
        *)
            entry=$1
            if ! is_below "${1%/}" "$libdir" && ! is_below "${1%/}" "$zshdir"; then return; fi
            ;;
    esac
    printf '%s\n' "$entry" >> "$entries"
}

make_folder() { # FOLDER: makes it and its parents, and records those that are new
    if [ -d "$root$1" ]; then return; fi
    if [ -z "$1" ]; then mkdir -p "$root/" && return; fi
    make_folder "${1%/*}"
    # (the path may have a "//")
    if [ -d "$root$1" ]; then return; fi
    mkdir "$root$1"
    record "$1/"
}

# Replaces the list with the recorded entries and those of the earlier list.
write_list() {
    printf '%s\n' "$own" >> "$entries"
    sort -u "$entries" > "$root$prefix/$own.new"
    mv -f "$root$prefix/$own.new" "$root$prefix/$own"
}

# Removes the listed files, then the list, then the listed folders that are empty. Prints what it has removed. If a file cannot be removed,
# the list and the folders stay, and this fails.
remove_listed() {
    read_list
    [ -f "$list" ] || fail "there is no $list: nothing is installed there"
    sort -ru -o "$entries" "$entries"
    files=0 folders=0 missing=0 failed=0
    while IFS= read -r entry; do
        case $entry in */ | "$own") continue ;; esac
        place_of "$entry"
        if [ ! -L "$place" ] && { [ -d "$place" ] || [ ! -e "$place" ]; }; then
            missing=$((missing + 1))
        elif rm -f -- "$place"; then
            files=$((files + 1))
        else
            failed=$((failed + 1))
        fi
    done < "$entries"
    [ $failed = 0 ] || fail "removed $files files from $root$prefix, but not $failed others, which stay in the list"
    rm -f -- "$list"
    while IFS= read -r entry; do
        case $entry in */) ;; *) continue ;; esac
        place_of "$entry"
        if rmdir -- "$place" 2> /dev/null; then folders=$((folders + 1)); fi
    done < "$entries"
    printf '%s: removed %s files and %s folders from %s\n' "$program" $((files + 1)) $folders "$root${prefix:-/}"
    if [ $missing != 0 ]; then printf '%s: %s listed files were not there\n' "$program" $missing; fi
}
