#!/bin/sh
# Installs a staged tree below a root and keeps a list of the files, so that the same files can be removed again.
#
#   packaging/manifest.sh install STAGE ROOT LIST
#   packaging/manifest.sh uninstall ROOT LIST
#
# LIST is the list's name below ROOT. It has a line for each file and link, and one that ends with a slash for each folder that an
# installation created. Files of the list that a later installation doesn't have are removed by it.
set -eu
umask 022
export LC_ALL=C

# Removes the files of a list, with what Python compiled of them, and then each folder of the list that is empty.
remove() {
    sort -r "$1" | while IFS= read -r name; do
        path=$root/$name
        module=${name##*/}
        case $name in
        *.py)
            rm -f -- "${path%/*}/__pycache__/${module%.py}".*.pyc
            rmdir -- "${path%/*}/__pycache__" 2>/dev/null || :
            ;;
        */) rmdir -- "${path%/}" 2>/dev/null || : ;;
        esac
        if [ -L "$path" ] || [ ! -d "$path" ]; then rm -f -- "$path"; fi
    done
}

# The list has every name before its file is there, so that an installation that is interrupted can be removed or done again.
install() {
    mkdir -p -- "$stage/$(dirname -- "$list")" "$root"
    : >"$stage/$list"
    find "$stage" -mindepth 1 \( -type d -printf '%P/\n' -o -printf '%P\n' \) | sort >"$work/new"
    touch "$work/old"
    [ ! -e "$root/$list" ] || cp -- "$root/$list" "$work/old"
    while IFS= read -r name; do
        case $name in */) if [ -d "$root/$name" ] && ! grep -qxF -- "$name" "$work/old"; then continue; fi ;; esac
        echo "$name"
    done <"$work/new" >"$work/own"
    mkdir -p -- "$(dirname -- "$root/$list")"
    sort -u "$work/old" "$work/own" >"$root/$list.new"
    mv -- "$root/$list.new" "$root/$list"
    chmod -R u=rwX,go=rX "$stage"
    tar -C "$stage" -cf - . | tar -C "$root" -xpf - --no-same-owner --no-overwrite-dir --keep-directory-symlink --exclude="./$list"
    comm -23 "$work/old" "$work/own" >"$work/gone"
    remove "$work/gone"
    cp -- "$work/own" "$root/$list.new"
    mv -- "$root/$list.new" "$root/$list"
}

uninstall() {
    if [ ! -e "$root/$list" ]; then
        echo "exifnorm: uninstall: nothing is installed there: there is no list $root/$list" >&2
        exit 1
    fi
    cp -- "$root/$list" "$work/old"
    remove "$work/old"
}

what="$#${1-}" stage=
case $what in 4install) stage=$2 && shift ;; 3uninstall) ;; *) sed -n 's/^# *//p' "$0" && exit 1 ;; esac
root=$2 list=${3#/}
work=$(mktemp -d)
trap 'rm -rf "$work"' EXIT
case $what in 4*) install ;; *) uninstall ;; esac
