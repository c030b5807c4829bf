#!/bin/sh
# install.sh [PREFIX]            copies what stands beside it below PREFIX, /usr/local if none is told, once its checksums are right
# install.sh --remove [PREFIX]   takes away what it copied, but for what was changed since
set -eu
here=$(cd "$(dirname "$0")" && pwd)
remove=
case ${1-} in
    --remove) remove=yes; shift ;;
    -*) sed -n '2,3s/^# //p' "$0"; exit 2 ;;
esac
prefix=${1-/usr/local}
case $prefix in /*) ;; *) prefix=$(pwd)/$prefix ;; esac
list=$prefix/share/vantulig/$(basename "$here"/checksums*.txt)

# the places that a list names, with their sums before them
rows() { sed -n 's/^\([0-9a-f]\{64\}\)  \(.*\)$/\1 \2/p' "$1"; }

if [ -n "$remove" ]; then
    for file in "$prefix"/share/vantulig/checksums*.txt; do list=$file; done
    if [ ! -f "$list" ]; then echo "there is no list below $prefix/share/vantulig: nothing is known to be installed" >&2; exit 1; fi
    rows "$list" | while read -r sum place; do
        if [ ! -f "$prefix/$place" ]; then continue; fi
        if [ "$(sha256sum < "$prefix/$place" | cut -c1-64)" = "$sum" ]; then rm "$prefix/$place"
        else echo "$prefix/$place was changed since, and stays" >&2; fi
    done
    sed -n 's/^# link \(.*\) to .*$/\1/p' "$list" | while read -r place; do
        if [ -L "$prefix/$place" ]; then rm "$prefix/$place"; fi
    done
    folders=$(sed -n 's/^# made the folder //p' "$list")
    rm "$list"
    echo "$folders" | sort -r | while read -r folder; do
        if [ -n "$folder" ]; then rmdir --ignore-fail-on-non-empty "$prefix/$folder" 2> /dev/null || true; fi
    done
    exit
fi

(cd "$here" && sha256sum --quiet -c "$(basename "$list")") || { echo "the archive isn't whole: nothing is installed" >&2; exit 1; }
for file in "$prefix"/share/vantulig/checksums*.txt; do
    if [ -f "$file" ]; then echo "$file is there: install.sh --remove $prefix first" >&2; exit 1; fi
done
wanted=$(rows "$here/$(basename "$list")" | sed -n 's/^[0-9a-f]* \(\(bin\|lib\|include\|share\)\/.*\)$/\1/p')
for place in $wanted; do
    if [ -e "$prefix/$place" ]; then echo "$prefix/$place is of another origin: nothing is installed" >&2; exit 1; fi
done
made=
for folder in $(for place in $wanted "share/vantulig/list"; do
    while place=$(dirname "$place"); [ "$place" != . ]; do echo "$place"; done
done | sort -u); do
    if [ ! -d "$prefix/$folder" ]; then made="$made# made the folder $folder
"; fi
    mkdir -p "$prefix/$folder"
done
for place in $wanted; do cp -p "$here/$place" "$prefix/$place"; done
sed -n 's/^# link \(.*\) to \(.*\)$/\1 \2/p' "$here/$(basename "$list")" | while read -r place to; do ln -sf "$to" "$prefix/$place"; done
{ grep '^#' "$here/$(basename "$list")"; printf '%s' "$made"; for place in $wanted; do grep "  $place\$" "$here/$(basename "$list")"; done; } > "$list"
echo "installed below $prefix; the list is $list"
sed -n 's/^# \(NOT PROVED.*\)$/\1/p' "$list"
