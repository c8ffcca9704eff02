#!/bin/bash
# tools/prove.sh program NAME | library NAME..: target/bin/NAME, or target/staticlib/libNAME.a of each NAME, proved and built where it is not current.
# The static library of a NAME that is a library of Rattle is its crate NAME_c.
# Standard error says which crate of how many is being proved, its seconds, and the seconds of all; nothing where all is current.
set -u -o pipefail
cd "$(dirname "$0")/.." || exit 1
shape=$1
shift
title=$*

say() { printf '%s: %s\n' "$title" "$*" >&2; }

# The crate that is built.
crate_of() { # NAME
    if [ "$shape" = library ] && grep -q "^$1_c staticlib" crates.txt; then echo "$1_c"; else echo "$1"; fi
}

# The crates of the repository that CRATES are made of, CRATES among them, each behind what it depends on.
made_of() { # CRATES
    awk -v names="$*" '
        function visit(n,    d, k, m) {
            if (!(n in deps) || seen[n]++) return
            m = split(deps[n], d, " ")
            for (k = 1; k <= m; k++) visit(d[k])
            print n
        }
        { sub(/#.*/, ""); i = index($0, ":") }
        i { split(substr($0, 1, i - 1), d, " "); deps[d[1]] = substr($0, i + 1) }
        END { m = split(names, n, " "); for (k = 1; k <= m; k++) visit(n[k]) }' crates.txt
}

output() { # NAME
    if [ "$shape" = program ]; then echo "target/bin/$1"; else echo "target/staticlib/lib$1.a"; fi
}

# ---- what is current: the toolchain, all files that NAME is made of, and its output are those of the last time

sum() { # NAME
    {
        rt version
        for crate in $(made_of "$(crate_of "$1")"); do find "crates/$crate" \( -name must-fail -o -name out \) -prune -o -type f -print; done |
            sort | xargs sha256sum crates.txt "$(output "$1")"
    } 2>&1 | sha256sum
}

not_current() { # NAMES
    for name; do
        [ -f "$(output "$name")" ] && [ "$(cat "target/proved/$shape-$name" 2>/dev/null)" = "$(sum "$name")" ] || echo "$name"
    done
}

# ---- rt, followed by what is said of its progress

# rt proves and builds the crates below first. A program it also runs, here on nothing, and its stamp says that it is proved and built, whatever its status.
prove() { # NAMES
    for name; do
        crate=$(crate_of "$name")
        out=crates/$crate/out
        rm -f "$out/$crate.stamp"
        if [ "$shape" = program ]; then
            (cd "crates/$crate" && rt run)
            [ -f "$out/$crate.stamp" ] && cp -f "$out/$crate" "$(output "$name")" || return 1
        else
            (cd "crates/$crate" && rt lib) && cp -f "$out/lib$crate.a" "$(output "$name")" || return
        fi
    done
}

count=0 now='' began=0

# rt says which crate it begins with, and then what it proved of it.
heard() { # LINE
    printf '%s\n' "$1" >>"$log"
    case $1 in
    'rt: chose --jobs '*' for '*)
        [ "${1##* }" != "$now" ] || return # begun again, with fewer jobs
        now=${1##* } began=$SECONDS
        [ $((count++)) -gt 0 ] || say "what is not proved yet of the $total crates that it is made of is proved first, once"
        say "proving $(grep -nxF "$now" <<<"$crates" | cut -d: -f1) of $total: $now"
        ;;
    'logic=proved'*)
        [ -z "$now" ] || say "proved $(grep -nxF "$now" <<<"$crates" | cut -d: -f1) of $total: $now, $((SECONDS - began)) s"
        ;;
    esac
}

command -v rt >/dev/null || { say "the Rattle toolchain is not here: there is no command rt"; exit 1; }
[ -n "$(not_current "$@")" ] || exit 0
mkdir -p target/proved target/bin target/staticlib
exec 9>target/proved/lock # held by what rt starts too, so that a run behind one that was broken off waits for its last crate
flock -n 9 || { say "another run is proving; this one waits for it"; flock 9; }
left=$(not_current "$@")
[ -n "$left" ] || exit 0
# shellcheck disable=SC2086
title=$(echo $left)

# shellcheck disable=SC2086
crates=$(made_of $(for name in $left; do crate_of "$name"; done)) total=$(wc -w <<<"$crates") log=target/proved/$shape.log
: >"$log"
SECONDS=0
shopt -s lastpipe # what is followed is known behind it
# shellcheck disable=SC2086
if ! prove $left </dev/null 2>&1 | while IFS= read -r line; do heard "$line"; done; then
    grep -E '^fn [^ ]+: (not proved|no proof)|^[^ ]+: error|^rt: (the library|mend|another)' "$log" >&2
    say "not proved; all that was said is in $log"
    exit 1
fi
for name in $left; do sum "$name" >"target/proved/$shape-$name"; done
[ "$count" -eq 0 ] || say "all proved, $((SECONDS / 60)) min $((SECONDS % 60)) s"
