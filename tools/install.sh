#!/bin/sh
# Installs the commands that lie beside this script, with all that belongs to them, or takes them away again.
#
#   ./install.sh [--prefix DIR]               into DIR/bin and DIR/share (/usr/local)
#   ./install.sh [--prefix DIR] --uninstall   takes away what was installed there, and nothing else
#
# No rights are needed but those to write below DIR. What was installed stands in DIR/share/lucid/installed: files with their
# checksums, and folders. A file that isn't of an earlier install is never overwritten, and one that was changed since is kept.
set -u
umask 022
export LC_ALL=C

say() { printf '%s\n' "$*"; }
fail() { printf '%s\n' "$*" >&2; exit 1; }
usage() { sed -n '2,/^set/s/^# \{0,1\}//p' "$0"; exit "$1"; }

prefix=/usr/local uninstalls=
while [ $# -gt 0 ]; do
    case $1 in
        --prefix) [ -n "${2-}" ] || usage 2 >&2; prefix=$2; shift ;;
        --prefix=?*) prefix=${1#--prefix=} ;;
        --uninstall) uninstalls=yes ;;
        --help) usage 0 ;;
        *) usage 2 >&2 ;;
    esac
    shift
done
case $prefix in /*) ;; *) prefix=$PWD/$prefix ;; esac
while [ "$prefix" != "${prefix%/}" ]; do prefix=${prefix%/}; done
here=$(CDPATH='' cd -- "$(dirname -- "$0")" && pwd) || exit 1
list=share/lucid/installed
work=$(mktemp -d) || exit 1
trap 'rm -rf "$work"' EXIT
trap 'exit 1' HUP INT TERM

# Lists of paths: their folders, those that are there below the prefix, and their checksums in a folder, as the list of files has them.
folders_of() { sed 's|/[^/]*$||' | sort -u; }
there() { while read -r path; do [ ! -e "$prefix/$path" ] || say "$path"; done; }
checksums() { (cd -- "$1" && xargs -r sha256sum) | sed 's/^\([^ ]*\)  /file \1 /' | sort; }
paths() { sed -n 's/^file [^ ]* //p' "$@" | sort -u; }

# Fails where a folder of these files, or the nearest one above that is there, may not be written.
needs_rights() {
    folders_of | while read -r folder; do
        folder=$prefix/$folder
        while [ ! -e "$folder" ]; do folder=$(dirname -- "$folder"); done
        [ -d "$folder" ] || fail "$folder isn't a folder: give another one by --prefix DIR."
        [ -w "$folder" ] && [ -x "$folder" ] ||
            fail "You may not write in $folder. Nothing is changed. Give a folder of your own, as by --prefix ~/.local, or ask for the right."
    done
}

# Takes away the files of a list that are as they were installed, and tells the others.
take_away() {
    there | checksums "$prefix" >"$work/now"
    comm -12 "$work/now" "$work/old" | paths | (cd -- "$prefix" && xargs -r rm -f --)
    comm -23 "$work/now" "$work/old" | paths | while read -r path; do say "Kept, since it was changed: $prefix/$path"; done
}

# Takes away those folders that were made for an install and are empty, the inner ones first.
take_folders() { sort -r "$work/folders" | while read -r folder; do rmdir -- "$folder" 2>/dev/null; done; }

# the files and the folders of an earlier install
{ cat -- "$prefix/$list" 2>/dev/null || :; } | sort -u >"$work/old"
paths "$work/old" >"$work/old_files"
sed -n 's/^folder //p' "$work/old" >"$work/folders"

if [ -n "$uninstalls" ]; then
    [ -s "$work/old" ] || fail "Nothing of lucid is installed in $prefix: there is no $prefix/$list."
    { cat "$work/old_files"; say "$list"; } | needs_rights || exit 1
    take_away <"$work/old_files"
    rm -f -- "$prefix/$list"
    take_folders
    say "lucid is taken away from $prefix."
    exit 0
fi

# Does a command run here? It asks for nothing but the C library.
trial=$("$here/bin/lucid" --make 1 --count 1 2>&1) ||
    fail "lucid doesn't run here. It needs Linux on x86_64 with the GNU C library @GLIBC@ or later; this is $(uname -sm) with $(
        getconf GNU_LIBC_VERSION 2>/dev/null || echo 'another C library').
$trial"

cd -- "$here" || exit 1
find bin share -type f | sort >"$work/files"
{ cat "$work/files"; say "$list"; } | needs_rights || exit 1
foreign=$(comm -23 "$work/files" "$work/old_files" | there | head -n 1)
[ -z "$foreign" ] ||
    fail "$prefix/$foreign is there, and no earlier install made it. Nothing is changed. Move it away, or give another folder by --prefix DIR."

# The list first, with the old one: an install that is broken off can be taken away, or begun again.
{ cat "$work/files"; say "$list"; } | folders_of | while read -r folder; do
    folder=$prefix/$folder
    while [ ! -e "$folder" ]; do say "$folder"; folder=$(dirname -- "$folder"); done
done >>"$work/folders"
checksums . <"$work/files" >"$work/new_files"
sort -u "$work/folders" | sed 's/^/folder /' | cat "$work/new_files" - >"$work/new"
note() { mkdir -p -- "$prefix/share/lucid" && sort -u "$@" >"$prefix/$list.new" && mv -f -- "$prefix/$list.new" "$prefix/$list" || exit 1; }
note "$work/new" "$work/old"

# What was changed since the earlier install and isn't as the new one has it.
there <"$work/files" | checksums "$prefix" | sort - "$work/old" "$work/old" "$work/new_files" "$work/new_files" | uniq -u | paths |
    while read -r path; do
        kept=$prefix/$path.changed
        while [ -e "$kept" ]; do kept=$kept~; done
        mv -- "$prefix/$path" "$kept" && say "Changed since it was installed, so it is kept beside the new one: $kept"
    done
while read -r path; do
    to=$prefix/$path folder=${prefix}/${path%/*}
    { [ -d "$folder" ] || mkdir -p -- "$folder"; } && cp -- "$path" "$to.lucid-new" && mv -f -- "$to.lucid-new" "$to" ||
        fail "$to can't be written. Begin again, or take away what is there by --uninstall."
done <"$work/files" || exit 1
(cd -- "$prefix" && xargs chmod a+rX,u+w,go-w <"$work/files") || exit 1
comm -23 "$work/old_files" "$work/files" | take_away
note "$work/new"
take_folders

say "lucid @VERSION@ is installed in $prefix: $(wc -l <"$work/files" | tr -d ' ') files."
case :$PATH: in *":$prefix/bin:"*) ;; *) say "To call it by name, put its folder into your PATH: export PATH=\"$prefix/bin:\$PATH\"" ;; esac
