#!/bin/sh
# Each growth of memory refused in turn to calls that are then made once more: sh growth.sh
# It first builds the program that makes the calls, of what lies in growth/ (as .rattle, since no check of the gate
# reads it) and of some files of the crates pua_examples and pua_examples_trees, in a new folder with a copy of the
# crates. (The gate doesn't prove it: what it shows when it is run is what contracts say already, over the real
# allocator.) Then its growth number N is refused, for N from 1 until a run meets no refusal. A run has to end as it
# must after the second call, or, where the growth was refused to something else than these calls, with a fault. A
# line is printed for each run that ends otherwise, then how many runs there were, in how many a call was made once
# more, and how many were wrong.
set -u
faults=$(realpath "$(dirname "$0")")
top=$(realpath "$faults/../..")
copy=$(mktemp -d)
trap 'rm -rf "$copy"' EXIT

# The crates, and in the place of pua_examples what is of no account for the calls left out.
(cd "$top" && tar -cf - --exclude=out HANDLES crates.txt crates) | (cd "$copy" && tar -xf -) || exit 2
crate=$copy/crates/pua_examples
mv "$crate" "$copy/whole"
mkdir -p "$crate/src/hostile" "$crate/src/growth" "$crate/proofs"
cp "$copy/whole/src/hostile/called.rt" "$copy/whole/src/hostile/dripping.rt" "$crate/src/hostile"
for part in audited listed told trees worlds; do cp "$copy/crates/pua_examples_trees/src/$part.rt" "$crate/src"; done
cp -R "$copy/crates/pua_examples_trees/proofs/audited" "$crate/proofs"
sed -i 's/pua_examples_trees\.proofs/pua_examples.proofs/' "$crate"/proofs/audited/*/*/*.antt
(cd "$faults/growth" && find . -name '*.rattle') | while read -r part; do
    cp "$faults/growth/$part" "$crate/src/${part%.rattle}.rt"
done
echo '0 calls made once more' > "$crate/stdout"
(cd "$crate" && rt run) || exit 2

set -- "$crate/out/pua_examples"
. "$faults/refusing.sh"
trap 'rm -rf "$copy" "$room"' EXIT
runs=0
again=0
elsewhere=0
wrong=0

while :; do
    refused $((runs + 1))
    [ -s met ] || break
    runs=$((runs + 1))
    case "$status $(cat written)" in
        '0 1 calls made once more') again=$((again + 1)) ;;
        '0 0 calls made once more') elsewhere=$((elsewhere + 1)) ;;
        '0 '*) wrong=$((wrong + 1)); echo "growth $runs: $(cat written)" ;;
        *' ') elsewhere=$((elsewhere + 1)) ;;
        *) wrong=$((wrong + 1)); echo "growth $runs: status $status, $(cat written told)" ;;
    esac
done
[ "$status $(cat written)" = '0 0 calls made once more' ] || { wrong=$((wrong + 1)); echo 'undisturbed: wrong'; }

echo "$runs growths: $again in calls made once more, $elsewhere elsewhere; $wrong wrong"
[ "$wrong" = 0 ]
