#!/bin/sh
# Installs what lies beside it below a folder, or takes it away from there.
# usage: ./install.sh PREFIX [remove]     such as /usr/local, or $HOME/.local; the program is PREFIX/bin/tgap then
here=$(CDPATH='' cd -- "$(dirname -- "$0")" && pwd) || exit 1
[ $# -eq 1 ] || [ "$#,${2-}" = 2,remove ] || { echo "usage: ./install.sh PREFIX [remove]" >&2; exit 2; }
set -e
mkdir -p "$1"
prefix=$(CDPATH='' cd -- "$1" && pwd)

# The files, by their names below a prefix.
files() { (cd "$here" && find bin lib share ! -type d | LC_ALL=C sort); }

if [ "${2-}" = remove ]; then
    files | while read -r file; do rm -f "$prefix/$file"; done
    for folder in lib/tgap share/doc/tgap; do [ ! -d "$prefix/$folder" ] || find "$prefix/$folder" -depth -type d -exec rmdir {} +; done
    exit
fi
files | while read -r file; do
    mkdir -p "$prefix/${file%/*}"
    # A file of before may be in use.
    rm -f "$prefix/$file"
    cp -P "$here/$file" "$prefix/$file"
done
echo "$prefix/share/doc/tgap/" >"$prefix/lib/tgap/release/packaged"
for file in lib/tgap/tgap-unit lib/tgap/tgap-keeper lib/systemd/system/tgap@.service; do
    sed "s|/usr/lib/tgap/|$prefix/lib/tgap/|g" "$here/$file" >"$prefix/$file"
done
echo "installed $prefix/bin/tgap, version $(cat "$here/lib/tgap/VERSION")"
