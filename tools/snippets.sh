#!/bin/bash
# tools/snippets.sh: builds and runs the snippets of README.md in Rattle, C and Rust. Each prints how many events its cell has; status 1 if one does not.
set -eu
cd "$(dirname "$0")/.."
events=4
here=$PWD out=$PWD/target/snippets
rm -rf "$out"
mkdir -p "$out/copy"

snippet() { # LANGUAGE
    awk -v first="\`\`\`$1" '$0 == first { on = 1; next } $0 == "```" { on = 0 } on' README.md
}
said() { # LANGUAGE OUTPUT
    if [ "$2" != "$events" ]; then
        echo "the snippet in $1 printed '$2', not $events" >&2
        exit 1
    fi
    echo "$1: $2 events"
}

tools/prove.sh library mivurakol
snippet c >"$out/door.c"
cc -std=c99 -Wall -Wextra -pedantic -Werror -Iinterface -o "$out/door_c" "$out/door.c" target/staticlib/libmivurakol.a
said C "$("$out/door_c")"

snippet rust >"$out/door.rs"
ln -s "$here/interface" "$out/interface"
rustc --edition 2021 -A dead_code -L target/staticlib -l static=mivurakol -o "$out/door_rust" "$out/door.rs"
said Rust "$("$out/door_rust")"

# a copy of the repository with one crate more; `rt` takes over what is proved here
trap 'rm -rf "$out/copy"' EXIT
tar -cf - --exclude=out crates crates.txt tools | tar -xf - -C "$out/copy"
mkdir -p "$out/copy/crates/door/src"
snippet rattle >"$out/copy/crates/door/src/main.rt"
sed -n 's/.*`\(door: [a-z ]*\)`.*/\1/p' README.md >>"$out/copy/crates.txt"
"$out/copy/tools/prove.sh" program door
said Rattle "$("$out/copy/target/bin/door")"
