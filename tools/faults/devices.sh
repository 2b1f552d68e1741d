#!/bin/sh
# What the whole program does where files, its own output and fault line, or the memory for its words fail:
# sh devices.sh PROGRAM
# It prints a line for each case that is not as it has to be, and at last how many were.
set -u
program=$(realpath "$1")
room=$(mktemp -d)
trap 'rm -rf "$room"' EXIT
cd "$room" || exit 2
printf 'tree 1\n0 dir\n' > tree
: > script
printf '1 stat /\n' > asks
printf '1 unveil / r\n' > veils
truncate -s 67108864 longest
truncate -s 67108865 longer
wrong=0

# The name of a case, the status that it has to end with, and its fault line; the case's is in `told`.
expect() {
    if [ "$status" != "$2" ] || [ "$(cat told)" != "$3" ]; then
        echo "$1: status $status, $(cat told)"
        wrong=$((wrong + 1))
    fi
}

run() {
    "$program" "$@" > written 2> told
    status=$?
}

run run tree script
expect 'nothing to do' 0 ''
run run missing script
expect 'no such file' 3 'pua: cannot read missing'
run run tree missing
expect 'no such script' 3 'pua: cannot read missing'
run run --table missing tree script
expect 'no such table' 3 'pua: cannot read missing'
run run --table . tree script
expect 'a directory as a table' 3 'pua: cannot read .'
run run --table longer tree script
expect 'a table one byte too long' 3 'pua: cannot read longer'
run run --table longest tree script
expect 'a table as long as may be' 1 'pua: table: bad toml'
run run . script
expect 'a directory' 3 'pua: cannot read .'
run run longer script
expect 'one byte too long' 3 'pua: cannot read longer'
run run longest script
expect 'as long as may be' 1 'pua: listing: bad header'
run
usage=$(cat told)
expect 'no words' 2 "pua: usage: ${usage#pua: usage: }"
run run "$(printf '\377')" script
expect 'a word that is no text' 2 "$usage"
run audit --limit 1 --after '' tree script
expect 'an empty word' 1 'pua: audit: bad resume'
run audit --limit 1 --after "stat:/
" tree script
expect 'a line end behind the pair' 1 'pua: audit: bad resume'
run why tree script stat "/f
"
expect 'a line end behind an argument' 1 'pua: request: line 1: bad line'
run audit --limit 1 tree script "a
"
expect 'a line end behind a name' 1 'pua: audit: bad candidate 1'
run audit tree script $(seq -f name%g 1 5000) --limit 1
expect 'an option behind many words' 1 'pua: audit: too many names'
run run '' script
expect 'a file without a name' 3 'pua: cannot read '
run run tree -
expect 'a hyphen is a name' 3 'pua: cannot read -'
run run tree/below script
expect 'a file below a file' 3 'pua: cannot read tree/below'
deep=$(printf 'a%.0s' $(seq 1 200))/$(printf 'b%.0s' $(seq 1 200))
mkdir -p "$deep"
cp tree "$deep/tree"
run run "$deep/tree" script
expect 'a name of many bytes, and another' 0 ''
run run /dev/zero script
expect 'a file without an end' 3 'pua: cannot read /dev/zero'
run run /dev/null script
expect 'a file without bytes' 1 'pua: listing: bad header'
# (more than a buffer holds, of which the last line alone is wrong)
seq -f '1 stat /%g' 1 20000 > long
echo 'tree 1' >> long
run run tree long
expect 'a long file' 1 'pua: script: line 20001: bad line'
mkfifo pipe unread
# (an output that is open and that nobody reads)
exec 3<> unread 4> unread 3>&-
for words in 'audit --limit 0 tree asks' 'objects --process all tree asks' 'run tree asks' 'tree tree asks' 'tight tree asks' 'tight --why tree veils' \
    --help --version; do
    "$program" $words > /dev/full 2> told
    status=$?
    expect "a full device: $words" 3 'pua: cannot write'
    "$program" $words >&- 2> told
    status=$?
    expect "a closed output: $words" 3 'pua: cannot write'
    "$program" $words 1< tree 2> told
    status=$?
    expect "an output that is open for reading: $words" 3 'pua: cannot write'
    "$program" $words >&4 2> told
    status=$?
    expect "a pipe that nobody reads: $words" 3 'pua: cannot write'
done
exec 4>&-
# (more lines than a pipe holds)
"$program" audit --limit 16 tree script $(seq -f name%g 1 200) > pipe 2> told &
head -n 1 < pipe > written
wait $!
status=$?
expect 'a pipe that ends early' 3 'pua: cannot write'
"$program" run tree script 2> /dev/full > written
status=$?
: > told
expect 'a fault line that is not asked for' 0 ''
"$program" 2> /dev/full > written
status=$?
: > told
expect 'a fault line that cannot be written' 2 ''
# (the memory that it may have grows until it suffices: before, the program does not start, or says so)
set -- $(yes word | head -n 2000)
memory=1048576
refused=0
while [ "$memory" -lt 268435456 ]; do
    (
        prlimit --as="$memory" "$program" "$@" > written 2> told
        exit $?
    ) 2> stopped
    status=$?
    if [ "$status" = 2 ]; then break; fi
    if [ "$status" -lt 126 ]; then
        refused=$((refused + 1))
        expect "many words and $memory bytes of memory" 4 'pua: out of memory'
    fi
    memory=$((memory + 65536))
done
if [ "$refused" = 0 ]; then
    echo 'many words: no memory was refused'
    wrong=$((wrong + 1))
fi
echo "$wrong wrong"
[ "$wrong" = 0 ]
