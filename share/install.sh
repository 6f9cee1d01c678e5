#!/bin/sh
# Installs the programs and the library of this folder.
#
#     ./install.sh [PREFIX]              into PREFIX (/usr/local if none is given)
#     ./install.sh --uninstall [PREFIX]  removes the files, and the folders that it made
#
# DESTDIR, if it is set, is put in front of PREFIX, for packagers. MBE_FILES and MBE_FROM, which
# tools/install sets, name the list of files and the folder that they are in.
set -eu
umask 022
usage() {
    echo "usage: ${MBE_INSTALL:-install.sh} [--uninstall] [PREFIX]" >&2
    exit 2
}
here=$(cd "$(dirname "$0")" && pwd)
files=${MBE_FILES:-$here/files.txt}
from=${MBE_FROM:-$here}
remove=
if [ "${1:-}" = --uninstall ]; then remove=1; shift; fi
[ $# -le 1 ] || usage
case "${1:-}" in -*) usage ;; esac
to=${DESTDIR:-}${1:-/usr/local}
# The folders that this script made, below the prefix; `.` is the prefix.
made=$to/share/doc/mbe/folders.txt

list() { grep -v '^#' "$files"; }

if [ -n "$remove" ]; then
    [ ! -d "$to" ] || to=$(cd "$to" && pwd)
    folders=$(cat "$made" 2>/dev/null || true)
    list | while read -r _ _ file; do rm -f "$to/$file"; done
    rm -f "$made"
    # The last folder that was made is removed first. A folder with other files remains.
    echo "$folders" | sed '1!G;h;$!d' | while read -r folder; do
        [ -z "$folder" ] || rmdir "$to/$folder" 2>/dev/null || true
    done
    [ -z "$(echo "$folders" | grep -x '\.')" ] || rmdir "$to" 2>/dev/null || true
    exit 0
fi

# Makes a folder below the prefix, with the folders above it, and lists those that are new.
new_folder() {
    [ ! -d "$to/$1" ] || return 0
    [ "$1" = . ] || new_folder "$(dirname "$1")"
    mkdir -p "$to/$1"
    new="$new$1
"
}
new=
for folder in $(list | while read -r _ _ file; do dirname "$file"; done | sort -u); do
    new_folder "$folder"
done
new_folder share/doc/mbe
printf %s "$new" >>"$made"
list | while read -r mode source file; do
    rm -f "$to/$file"
    if [ "$mode" = link ]; then
        ln -s "$source" "$to/$file"
    else
        install -m "$mode" "$from/$source" "$to/$file"
    fi
    echo "$to/$file"
done
