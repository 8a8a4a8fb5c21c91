#!/usr/bin/env bash
# Installs the command with its man page and completions, the programs but liftlists, the library, its header and its pkg-config file.
#   install.sh DESTDIR PREFIX           (`make install`)
#   install.sh --remove DESTDIR PREFIX  takes all of them away again (`make uninstall`)
set -eu
cd "$(dirname "$0")/.."

# All that is installed, under the prefix.
man=share/man/man1/sorbrudder.1
bash=share/bash-completion/completions/sorbrudder
zsh=share/zsh/site-functions/_sorbrudder
fish=share/fish/vendor_completions.d/sorbrudder.fish
programs="everylist liftcount treelist"
files="bin/sorbrudder $man $bash $zsh $fish"
for program in $programs; do
    files="$files bin/$program"
done
files="$files lib/libsorbrudder.a include/sorbrudder.h lib/pkgconfig/sorbrudder.pc"

remove=
if [ "$1" = --remove ]; then
    remove=yes
    shift
fi
to=$1$2
prefix=$2
if [ -n "$remove" ]; then
    for file in $files; do
        rm -f "$to/$file"
    done
    echo "removed from $to: $files"
    exit
fi

prebuilt=prebuilt/$(uname -m)-$(uname -s | tr '[:upper:]' '[:lower:]')
library=target/staticlib/libsorbrudder.a
[ -f "$library" ] || library=$prebuilt/libsorbrudder.a
command=${CARGO_TARGET_DIR:-host/target}/release/sorbrudder
version=$(sed -n 's/^version = "\(.*\)"$/\1/p' host/Cargo.toml | head -n 1)

# Puts a text there.
put() {
    install -d "$(dirname "$to/$1")"
    cat >"$to/$1"
    chmod 644 "$to/$1"
}

install -D -m 755 "$command" "$to/bin/sorbrudder"
"$command" man | put "$man"
"$command" completions bash | put "$bash"
"$command" completions zsh | put "$zsh"
"$command" completions fish | put "$fish"
for program in $programs; do
    # As it is proved here, else the prebuilt one.
    from=target/bin/$program
    [ -f "$from" ] || from=$prebuilt/$program
    if [ -f "$from" ]; then
        install -D -m 755 "$from" "$to/bin/$program"
    else
        echo "make install: there is no $program for this system; \`make programs\` proves and builds it" >&2
    fi
done
install -D -m 644 "$library" "$to/lib/libsorbrudder.a"
install -D -m 644 include/sorbrudder.h "$to/include/sorbrudder.h"
put lib/pkgconfig/sorbrudder.pc <<PC
prefix=$prefix
libdir=\${prefix}/lib
includedir=\${prefix}/include

Name: sorbrudder
Description: A reader and writer of Molang token lists whose answers are proved
Version: $version
Libs: -L\${libdir} -lsorbrudder
Cflags: -I\${includedir}
PC
echo "installed under $to: $files"
