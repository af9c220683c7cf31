#!/usr/bin/env bash
# Starts a program of your own: copies crates/first_use as crates/NAME, and adds its line to crates.txt.
#
#   scripts/new_program.sh NAME            in this repository
#   scripts/new_program.sh NAME FOLDER     in a repository of its own in FOLDER, beside copies of the library's crates, with what
#                                          is proved of them; what the folder has already stays
set -eu
top=$(cd "$(dirname "$0")/.." && pwd)
name=${1:-}
if [[ ! $name =~ ^[a-z][a-z0-9_]*$ || $# -gt 2 ]]; then
    echo "usage: scripts/new_program.sh NAME [FOLDER], where NAME is of lower-case letters, digits and underscores" >&2
    exit 2
fi
folder=${2:-$top}
if [[ -e $folder/crates/$name ]]; then
    echo "$folder/crates/$name is there already" >&2
    exit 1
fi

# Adds the lines of crates.txt that come in, and ends its last one, if it has no end.
add_lines() {
    [[ ! -s $folder/crates.txt || -z $(tail -c 1 "$folder/crates.txt") ]] || echo >>"$folder/crates.txt"
    cat >>"$folder/crates.txt"
}

if [[ ! -d $folder/crates/fastmetrics ]]; then
    mkdir -p "$folder/crates"
    cp -a "$top"/crates/{fm_*,fastmetrics} "$folder/crates/"
    [[ -e $folder/HANDLES ]] || cp "$top/HANDLES" "$folder/"
    [[ -e $folder/.gitignore ]] || echo out/ >"$folder/.gitignore"
    [[ -e $folder/.git ]] || git -C "$folder" init -q
    grep -E '^(fm_|fastmetrics)' "$top/crates.txt" | add_lines
fi
mkdir "$folder/crates/$name"
cp -r "$top"/crates/first_use/{src,stdout} "$folder/crates/$name/"
sed -n "s/^first_use/$name/p" "$top/crates.txt" | add_lines

grep -q Wait "$folder/HANDLES" || echo "$folder/HANDLES doesn't allow Wait, which the program needs" >&2
grep -q Net "$folder/HANDLES" || echo "A server that opens sockets adds Net to $folder/HANDLES; the library is then proved" \
    "anew, 20 to 40 minutes on four cores"
cat <<END
$folder/crates/$name/src/main.rt is a copy of crates/first_use. Next:

  cd $folder/crates/$name && rt try    runs it with run-time checks; nothing is proved
  cd $folder && rt ci $name            proves it, and what of the library isn't proved yet, and runs it
END
