#!/bin/sh
# Installs the built programs, their man pages, their completions, their tools, their editor files, and the pages of docs/ with the
# examples.
#
#   ./install.sh                                  to /usr/local
#   PREFIX=$HOME/.local ./install.sh              to another place
#   DESTDIR=/tmp/package PREFIX=/usr ./install.sh into a folder that a package is made of
#   ./install.sh --remove                         takes the same files away again, and the folders that it made
#
# A tool NAME is called as cec-NAME. PROGRAM names another program than the built cec, OPTIMIZER than the built cec-opt, and
# PROVER than the built cec-prove. The last two are left out where they are not built.
set -eu
top=$(CDPATH='' cd -- "$(dirname -- "$(readlink -f -- "$0")")" && pwd)
prefix=${PREFIX:-/usr/local}
destdir=${DESTDIR:-}
root=$destdir$prefix
# The folders that an installation made, without DESTDIR, so that a removal leaves no others behind and takes no others away.
list=$root/share/cec/folders
program=${PROGRAM:-$top/crates/cec/out/cec}
optimizer=${OPTIMIZER:-$top/crates/cec_opt/out/cec_opt}
prover=${PROVER:-$top/crates/cec_prove/out/cec_prove}
tools="ask_abc assertions blif_clock c_interface comment_states cover_traces explain language_server lines_to_vcd listing_to_dot playground simulate states trace_report"

remove() {
    folders=
    if [ -f "$list" ]; then
        folders=$(sort -r "$list")
    fi
    for name in cec cec-opt cec-prove; do
        rm -f "$root/bin/$name" "$root/share/man/man1/$name.1" "$root/share/bash-completion/completions/$name" \
            "$root/share/zsh/site-functions/_$name"
    done
    for tool in $tools; do
        rm -f "$root/bin/cec-$tool" "$root/share/man/man1/cec-$tool.1"
    done
    rm -rf "$root/lib/cec" "$root/share/cec" "$root/share/doc/cec"
    # The deepest come first; one that has files of others stays.
    printf '%s\n' "$folders" | while IFS= read -r folder; do
        [ -z "$folder" ] || rmdir "$destdir$folder" 2>/dev/null || :
    done
}

# Makes a folder, and takes down those on the way that were not there.
made=
folder() {
    here=$1
    while [ ! -d "$here" ]; do
        made="$made${here#"$destdir"}
"
        here=$(dirname -- "$here")
    done
    mkdir -p "$1"
}

case ${1-} in
--remove)
    remove
    exit 0
    ;;
'') ;;
*)
    sed -n '2,11s/^# \{0,1\}//p' "$0" >&2
    exit 2
    ;;
esac

if [ ! -f "$program" ] || [ ! -x "$program" ]; then
    echo "install.sh: no program at $program; ./cec builds it" >&2
    exit 3
fi
# Files of an older version are not kept.
remove
for it in bin lib/cec/tools/parts share/man/man1 share/bash-completion/completions share/zsh/site-functions share/cec \
    share/doc/cec/docs; do
    folder "$root/$it"
done
# The files of a program: NAME FILE.
put_program() {
    install -m 755 "$2" "$root/bin/$1"
    install -m 644 "$top/share/man/$1.1" "$root/share/man/man1/$1.1"
    install -m 644 "$top/share/completions/$1.bash" "$root/share/bash-completion/completions/$1"
    install -m 644 "$top/share/completions/_$1" "$root/share/zsh/site-functions/_$1"
}

put_program cec "$program"
if [ -f "$optimizer" ] && [ -x "$optimizer" ]; then
    put_program cec-opt "$optimizer"
fi
if [ -f "$prover" ] && [ -x "$prover" ]; then
    put_program cec-prove "$prover"
fi
for page in LICENSE README.md; do
    install -m 644 "$top/$page" "$root/share/doc/cec/$page"
done
for page in "$top"/docs/*.md "$top"/docs/*.svg; do
    install -m 644 "$page" "$root/share/doc/cec/docs/"
done
cp -R "$top/examples" "$root/share/doc/cec/"
for part in "$top"/tools/parts/*.py; do
    install -m 644 "$part" "$root/lib/cec/tools/parts/"
done
for tool in $tools; do
    install -m 755 "$top/tools/$tool" "$root/lib/cec/tools/$tool"
    ln -s "../lib/cec/tools/$tool" "$root/bin/cec-$tool"
    install -m 644 "$top/share/man/cec-$tool.1" "$root/share/man/man1/cec-$tool.1"
done
for editor in vscode emacs; do
    cp -R "$top/share/$editor" "$root/share/cec/"
done
printf '%s' "$made" >"$list"
