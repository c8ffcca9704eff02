#!/bin/sh
# tools/dev.sh NAME [WORDS]: `rt dev`, each proof file that the check offers written where there is none, and of what it prints only what is to be done
here=$(dirname "$0")
out=$(mktemp)
RT_CUT=0 rt dev "$@" >"$out" 2>&1
python3 "$here/scaffold.py" <"$out"
python3 "$here/brief.py" <"$out"
rm -f "$out"
