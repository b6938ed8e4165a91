#!/usr/bin/env bash
# Speed beside plain C: builds a proved static library with the functions that the harness calls, compiles the harness, and prints the
# tables. Not part of the gate. What is exported for it stands in bench/speed.txt and becomes a crate in a copy of the repository, which is
# removed in the end. What this machine has proved before is taken over; without that all is proved first.
set -euo pipefail
cd "$(dirname "$0")/.."
began=$SECONDS
kit=$(dirname "$(rt doc)")
copy=$(mktemp -d)
trap 'rm -rf "$copy"' EXIT
cp crates.txt "$copy" && tar -c --exclude=out crates | tar -x -C "$copy"
mkdir -p "$copy/crates/speed/src"
cp bench/speed.txt "$copy/crates/speed/src/lib.rt"
echo 'speed staticlib: code galois diagonal recovery layout member shelf bank contents volume' >> "$copy/crates.txt"

# build NAME WORDS..: runs rt in the crate's folder in the copy, and says what it said where it fails
build() {
    local name=$1
    shift
    if ! (cd "$copy/crates/$name" && rt "$@") > "$copy/said" 2>&1 < /dev/null; then
        tail -n 30 "$copy/said"
        echo "bench: rt $* failed in $name"
        exit 1
    fi
}
build speed lib
build replay run
replay=$copy/crates/replay/out/replay

# The peers that are installed.
words=()
if echo '#include <isa-l/raid.h>' | gcc -E -x c - > /dev/null 2>&1; then
    words+=(-DWITH_ISAL -lisal)
else
    echo 'ISA-L is not installed (libisal-dev): its rows are left out'
fi
if echo '#include <jerasure/reed_sol.h>' | gcc -E -x c - > /dev/null 2>&1; then
    words+=(-DWITH_JERASURE -lJerasure -lgf_complete)
else
    echo 'jerasure is not installed (libjerasure-dev): its rows are left out'
fi
gcc -O3 -Wall -o "$copy/harness" bench/harness.c "$copy/crates/speed/out/libspeed.a" "$kit/c/libos_c.a" "$kit/c/liblibc_c.a" "${words[@]}"

echo "On $(nproc) processors, $(sed -n 's/^model name[^:]*: //p' /proc/cpuinfo | head -n 1), $(gcc --version | head -n 1)"
echo
"$copy/harness"

# A script of so many operations on a P+Q volume of 24 blocks: writes, reads, scrubs and ticks in turn.
script() {
    local count=$1 i
    printf "\\0\\0\\x$(printf '%02x' $((count % 256)))\\x$(printf '%02x' $((count / 256)))\\0\\0"
    for ((i = 0; i < count; i++)); do printf "\\$(((i % 4 == 0) * 2 + (i % 4 == 1) + (i % 4 == 2) * 3))"; done
    for ((i = 0; i < count; i++)); do printf "\\x$(printf '%02x' $((i / 4 % (i % 4 == 2 ? 6 : 24))))\\0\\x$(printf '%02x' $((i % 251)))\\0"; done
}
script 0 > "$copy/empty"
script 1000 > "$copy/thousand"
[ "$("$replay" < "$copy/thousand" | awk '$3 == 0' | wc -l)" = 1000 ] || {
    echo 'WRONG: the script of 1,000 operations is not answered whole'
    exit 1
}

# runs FILE: microseconds of 200 runs of replay
runs() {
    local from=${EPOCHREALTIME/./} i
    for ((i = 0; i < 200; i++)); do "$replay" < "$1" > /dev/null; done
    echo $((${EPOCHREALTIME/./} - from))
}
# The least of seven rounds of each, in turn.
empty=$(runs "$copy/empty")
thousand=$(runs "$copy/thousand")
for round in 1 2 3 4 5 6; do
    took=$(runs "$copy/empty")
    if [ "$took" -lt "$empty" ]; then empty=$took; fi
    took=$(runs "$copy/thousand")
    if [ "$took" -lt "$thousand" ]; then thousand=$took; fi
done
echo 'The program replay, milliseconds for one run, with the start of the process:'
echo
echo '| the empty script | 1,000 operations | ratio | more for each operation |'
echo '|---|---|---|---|'
awk -v e="$empty" -v t="$thousand" 'BEGIN { printf "| %.2f | %.2f | %.2f | %.2f microseconds |\n", e / 2e5, t / 2e5, t / e, (t - e) / 2e5 }'
echo
echo "bench: $((SECONDS - began)) seconds in all"
