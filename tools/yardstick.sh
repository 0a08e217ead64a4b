#!/usr/bin/env bash
# Compares what hpfturn and plain C programs write for the same, and prints the best of three times of each and their ratio.
# No check of the repository: times depend on the machine.
set -eu
export LC_ALL=C TIMEFORMAT=%R
top=$(cd "$(dirname "$0")/.." && pwd)
room=$(mktemp -d)
trap 'rm -rf "$room"' EXIT

for name in yardstick owners local make; do
    gcc -O2 -Wall -Wextra -o "$room/$name" "$top/tools/$name.c"
done

plain() { "$room/$1" "${@:2}" <"$room/frames" >"$room/plain.out" 2>"$room/plain.notes"; }
proved() { "$top/hpfturn" "$@" <"$room/frames" >"$room/proved.out" 2>"$room/proved.notes"; }

# compare TITLE WORD ..: the words of hpfturn, and behind `--` the plain program of tools/ with its words.
compare() {
    local title=$1 words=()
    shift
    while [ "$1" != -- ]; do
        words+=("$1")
        shift
    done
    shift
    # (builds the program where need be, which is no part of its time)
    proved "${words[@]}" || { cat "$room/proved.notes" >&2; exit 1; }
    : >"$room/plain.times"
    : >"$room/proved.times"
    for _ in 1 2 3; do
        { time plain "$@"; } 2>>"$room/plain.times"
        { time proved "${words[@]}"; } 2>>"$room/proved.times"
    done
    cmp "$room/plain.out" "$room/proved.out"
    cmp "$room/plain.notes" "$room/proved.notes"
    echo "$title: outputs agree"
    awk -v plain="$(sort -n "$room/plain.times" | head -n 1)" -v proved="$(sort -n "$room/proved.times" | head -n 1)" \
        'BEGIN { printf "    plain C %s s, hpfturn %s s, ratio %.2f\n", plain, proved, proved / plain }'
}

printf '%s\n' 'INTEGER A(65536)' '!HPF$ PROCESSORS P(4)' '!HPF$ DISTRIBUTE A(BLOCK) ONTO P' '!PIPE$ INPUT A' >"$room/map"
"$top/tools/frames.py" fill 200 65536 >"$room/frames"
compare "200 frames of 65536 elements on 4 processors" run "$room/map" -- yardstick 4

printf '%s\n' 'INTEGER A(256,256)' '!HPF$ PROCESSORS P(4,4)' '!HPF$ DISTRIBUTE A(BLOCK,BLOCK) ONTO P' '!PIPE$ INPUT A' >"$room/map"
"$top/tools/frames.py" fill 50 256 256 >"$room/frames"
compare "50 frames of 256 by 256 elements on 4 by 4 processors" run "$room/map" -- yardstick 4 4

printf '%s\n' 'INTEGER A(2048,2048)' '!HPF$ PROCESSORS P(8,8)' '!HPF$ DISTRIBUTE A(BLOCK, CYCLIC(3)) ONTO P' >"$room/map"
printf '%s\n' 'INTEGER A(65536)' '!HPF$ PROCESSORS P(4)' '!HPF$ DISTRIBUTE A(BLOCK) ONTO P' '!PIPE$ INPUT A' >"$room/map"
compare "2000 frames of 65536 elements made from a seed" make "$room/map" --frames 2000 --seed 7 -- make 65536 2000 7

compare "owners of 2048 by 2048 elements on 8 by 8 processors" owners "$room/map" A -- owners 2048 8

printf '%s\n' 'INTEGER A(2048,2048)' '!HPF$ PROCESSORS P(2,2)' '!HPF$ DISTRIBUTE A(BLOCK, BLOCK) ONTO P' '!HPF$ SHADOW A(1,1)' >"$room/map"
compare "a part of 2048 by 2048 elements on 2 by 2 processors, with its shadow" local "$room/map" A --proc 0 -- local 2048 2
