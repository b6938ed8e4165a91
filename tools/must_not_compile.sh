#!/usr/bin/env bash
# Programs that must not compile. A must-fail edit is taken for refused only where a proof fails, so what the compiler refuses is tried
# here: each edit is made in a copy, and the compiler has to refuse it with its own word. The copy as it stands has to compile and run.
# Nothing is proved here: `rt try` compiles a program from the sources, its libraries' too, and asks for no proof.
set -u
cd "$(dirname "$0")/.." || exit 2
copy=$(mktemp -d) || exit 2
trap 'rm -rf "$copy"' EXIT
cp crates.txt "$copy" && tar -c --exclude=out crates | tar -x -C "$copy" && mkdir -p "$copy/crates/program/src" || exit 2
echo 'program: code galois layout member bank contents volume' >> "$copy/crates.txt"

# The program that is compiled: it formats a volume, reads it, rebuilds a stripe of a slot, and hands the volume to a type that asks nothing of
# its code.
cat > "$copy/crates/program/src/main.rt" <<'END'
#![tactic(auto)]

use bank::empty::NoMembers;
use galois::Pq;
use layout::Rotating;
use volume::volume::Volume;
use volume::volume::blank::Blank;
use volume::volume::rebuilds::Order;

#[derive(Drop)]
struct Named<C, L, B> {
    number: usize,
    volume: Volume<C, L, B>,
}

fn main() {
    let parts = Blank::new(Pq, Rotating, NoMembers);
    let mut volume = parts.format();
    let _ = volume.read(0, &mut [0u8; 512]);
    let opened = volume.open(0);
    let order = match opened {
        Ok(order) => order,
        Err(_) => return,
    };
    let _ = volume.step(&order);
    let _ = volume.close(order);
    let _ = Named { number: 1, volume };
}
END

# The cases: label | text that stands in the program once | what it is replaced by | the compiler's word
cases=(
    'a read of a blank volume|parts.format()|parts|error[unknown-method]'
    'an order that is let fall|let _ = volume.close(order);||error[linear-value-let-go]'
    'an order that is opened and not looked at|let opened = volume.open(0);|let _ = volume.open(1); let opened = volume.open(0);|error[linear-value-let-go]'
    'an order that is made up|Ok(order) => order,|Ok(order) => { let _ = volume.close(order); Order { slot: 0 } }|error[private-field]'
    'an order that is used after it was closed|let _ = volume.close(order);|let _ = volume.close(order); let _ = volume.step(&order);|error[borrow-e0382]'
)

# compiles: whether the copy compiles and runs; what was said is in $copy/said
compiles() {
    (cd "$copy/crates/program" && rt try) > "$copy/said" 2>&1
}

if ! compiles; then
    echo 'must not compile: what stands does not compile'
    head -c 1000 "$copy/said"
    exit 1
fi
failed=0
for case in "${cases[@]}"; do
    IFS='|' read -r label old new word <<< "$case"
    file=crates/program/src/main.rt
    text=$(< "$copy/$file")
    if [[ $text != *"$old"* || ${text#*"$old"} == *"$old"* ]]; then
        echo "must not compile: $label: '$old' does not stand in the program once"
        failed=1
        continue
    fi
    printf '%s\n' "${text%%"$old"*}$new${text#*"$old"}" > "$copy/$file"
    compiles
    status=$?
    if [ "$status" = 1 ] && grep -qF -- "$word" "$copy/said"; then
        echo "must not compile: $label: refused with $word"
    else
        echo "must not compile: $label: NOT refused with $word (status $status)"
        head -c 1000 "$copy/said"
        failed=1
    fi
    printf '%s\n' "$text" > "$copy/$file"
done
exit "$failed"
