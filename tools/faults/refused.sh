#!/bin/sh
# Each growth of memory refused in turn in the program: sh refused.sh PROGRAM
# For each command its growth number N is refused, for N from 1 until a run meets no refusal: once this
# growth alone, and once each one from it on. A run has to end with status 4, the one line
# `pua: out of memory` on standard error and nothing on standard output, or as it ends undisturbed,
# where the refused growth was of no account. A line is printed for each run that does neither, for each
# command how many runs did which, and at last how many runs there were and how many were wrong.
. "$(dirname "$0")/refusing.sh"
runs=0
wrong=0
ended=

printf '%s\n' 'tree 1' '0 dir' '1 dir 0 etc' '2 file 1 passwd' '3 dir 0 tmp' '4 link 0 t tmp' \
    '5 link 3 up ../etc' '6 link 3 self self' '7 prog 3 sh' > tree
printf '%s\n' 'tree 2' '0 dir' '1 dir 0 d' '2 file 1 f' '3 hard 0 g 2' '4 link 1 l g' '6 hard 1 k 4' > twice
printf '%s\n' 'tree 1' '0 dir' '1 dir 0' > cut
printf '%s\n' 'tree 2' '0 dir' '1 file 0 a' '2 hard 0 b 3' > lost
# Its first path is too long to lie in its request, and so takes memory.
printf '%s\n' '1 create /tmp/../tmp/../tmp/../tmp/../a' '1 mkdir /tmp/new' '1 symlink ../etc /tmp/new/l' \
    '1 rename /a /tmp/new/b' '1 rename /tmp /etc/tmp' '1 unlink /etc/tmp/sh' '1 rmdir /etc/tmp/new' \
    '1 stat /etc/tmp/new/b' > edits
printf '%s\n' '1 fork 2' '1 unveil /etc/passwd rw' '2 unlink /etc/passwd' '1 stat /etc/passwd' '2 create /etc/passwd' \
    '2 fork 3' '3 exec /tmp/sh' '3 exit' '3 stat /' > forks
printf '%s\n' '1 unveil /etc r' '1 unveil /etc rw' '1 unveil /etc/passwd rw' '1 unveil /etc q' '1 unveil /no/x r' \
    '1 unveil - -' '1 unveil /tmp r' '1 unveil - -' > veils
printf '%s\n' '1 fork 2' '1 unveil /d rwc' '1 link /d/f /d/h' '2 link /g /d/i' '2 unlink /d/f' '2 rename /g /d/j' \
    '1 link /d/h /d' '1 link /g /d/x' '2 link /d /e' '2 rename /d/h /d/i' '1 stat /d/h' > links
printf '%s\n' '1 unveil /etc/passwd r' '1 unveil - -' > one
printf '%s\n' '1 pledge stdio,cpath -' '1 mkdir /d' '1 chdir /d' > makes
printf '%s\n' '1 fork 2' '2 mkdir /n' '1 unveil /n rwc' '1 unveil /n/x =' '1 unveil /tmp/sh rx' \
    '1 pledge stdio,rpath,exec stdio,rpath' '2 rmdir /n' > gone
printf '%s\n' '1 fork 2' '2 unveil /d rwc' '2 unveil /g rc' '2 unveil /n c' '2 unveil - -' > moves
printf '%s\n' '1 pledge stdio,,rpath -' > list
printf '%s\n' '1 uses inet|unix|inet' > asks
printf '%s\n' '1 unveil /d rwc' '1 unveil - -' '1 fork 2' '2 pledge stdio,rpath -' > both
printf '%s\n' '1 unveil /d wc' '1 unveil /o rwc' '1 unveil - -' > drop
printf '%s\n' 'tree 3' '0 dir' '1 dir 0 d' '2 mount 1 m' '3 file 2 f' '4 mount 0 n' '5 dir 4 e' '6 dir 0 o' > mounts
printf '%s\n' '1 fork 2' '1 unveil /d rc' '1 unveil /n rwc' '1 unveil /n/x c' '1 unveil /o c' '1 unveil - -' '2 unveil - -' > apart
printf '%s\n' '[chmod]' 'promises = ["fattr", "rpath"]' 'veil = "r"' 'stat = { promises = [""], veil = "" }' > nested
printf '%s\n' 'stat = { promises = [""], veil = "" }' '[chmod]' 'promises = ["fattr", "rpath"]' 'veil = "r"' > calls
printf '%s\n' 'unlink = { promises = ["cpath"], veil = "" }' > stays
printf '%s\n' '1 bind /tmp/s' '1 connect /tmp/s' '1 mknod /tmp/m' '1 chown /tmp/m' '1 bind /tmp/m' > sockets
printf '%s\n' '1 pledge stdio,dns -' '1 open-r /etc/hosts' > opened
printf '%s\n' '1 unveil /d rwc' '1 pledge stdio,rpath,wpath,cpath -' '1 open-rw /d/f' '1 create /d/n' '1 unlink /d/l' > needs
: > none

# Counts the run's answer, or prints that it is wrong.
judge() {
    runs=$((runs + 1))
    if [ "$status" = 4 ] && [ ! -s written ] && cmp -s told line; then
        named=$((named + 1))
    elif [ "$status" = "$ended" ] && cmp -s written output && cmp -s told fault; then
        same=$((same + 1))
    else
        echo "$name, growth $at, $mode: status $status, $(cat told)"
        wrong=$((wrong + 1))
    fi
}

# The name of a case, the status that it has undisturbed, and the words of the command.
sweep() {
    name=$1
    ended=$2
    shift 2
    "$program" "$@" > output 2> fault
    status=$?
    if [ "$status" != "$ended" ]; then
        echo "$name: status $status undisturbed, $(cat fault)"
        wrong=$((wrong + 1))
    fi
    for mode in alone 'and on'; do
        named=0
        same=0
        growths=0
        if [ "$mode" = 'and on' ]; then export REFUSE_ON=1; else unset REFUSE_ON; fi
        while :; do
            refused $((growths + 1)) "$@"
            [ -s met ] || break
            growths=$at
            judge
        done
        echo "$name, $mode: $growths growths, $named out of memory, $same undisturbed"
    done
}

echo 'pua: out of memory' > line
sweep 'edits' 0 run tree edits
sweep 'forks' 0 run tree forks
sweep 'veils' 0 run tree veils
sweep 'further names' 0 run twice links
sweep 'no script' 0 run tree none
sweep 'sockets, and what is made' 0 run --rules openbsd tree sockets
sweep 'a run with reasons' 0 run --why tree veils
sweep 'a reason, and what opens the path' 0 run --why --rules openbsd tree opened
sweep 'an audit' 0 audit --limit 3 tree one
sweep 'an audit of what it makes' 0 audit --limit 2 --base cwd tree makes a 'b\040c'
sweep 'an audit of another process' 0 audit --limit 2 --process 2 tree forks
sweep 'an audit that is resumed' 0 audit --limit 3 --after lstat:/etc/passwd tree one
sweep 'an audit of many lines' 0 audit --limit 6 tree none
sweep 'an audit of further names' 0 audit --limit 2 --process 2 twice links
sweep 'objects' 0 objects tree one
sweep 'objects of another process' 0 objects --process 2 twice links
sweep 'objects of two processes' 0 objects --process 2,1 twice links
sweep 'objects of all processes' 0 objects --process all tree forks
sweep 'objects, and places that are gone' 0 objects tree gone
sweep 'objects at a line' 0 objects --at 4 tree gone
sweep 'for ever' 0 objects --ever tree one
sweep 'for ever, and what can be moved' 0 objects --ever --process 2 twice moves
sweep 'for ever, and places that are gone' 0 objects --ever tree gone
sweep 'for ever, two together' 0 objects --ever --process 1,2 twice both
sweep 'for ever, all together' 0 objects --ever --process all twice both
sweep 'for ever, with the help of another' 0 objects --ever --process 1 --beside 2 twice both
sweep 'for ever, over mount points' 0 objects --ever mounts apart
sweep 'for ever, over mount points, with the help of another' 0 objects --ever --process 1 --beside 2 mounts apart
sweep 'for ever, with the steps of ways' 0 objects --ever --how twice drop
sweep 'for ever, with the steps of ways, at or below a path' 0 objects --ever --how --below /d twice drop
sweep 'for ever, with what lets calls through' 0 objects --ever --why tree one
sweep 'for ever, with reasons, and what can be moved' 0 objects --ever --why --process 2 twice moves
sweep 'for ever, with reasons, over mount points' 0 objects --ever --why mounts apart
sweep 'a way' 0 how twice drop open-r /d/f
sweep 'a way to what is made' 0 how twice drop stat new
sweep 'what never comes' 0 how twice both open-r /k
sweep 'a tightened script' 0 tight tree gone
sweep 'a tightened script of a file with two names' 0 tight twice moves
sweep 'a tightened script of words that are needed' 0 tight twice needs
sweep 'what words are needed by' 0 tight --why tree gone
sweep 'a tightened script by a table' 0 tight --table calls tree makes
sweep 'a run by a table' 0 run --table calls tree veils
sweep 'an audit by a table' 0 audit --limit 3 --table calls tree one
sweep 'objects by a table' 0 objects --table calls tree one
sweep 'help' 0 --help
sweep 'help of an audit' 0 audit --help
sweep 'help of objects' 0 objects --help
sweep 'help of a tightened script' 0 tight --help
sweep 'the version' 0 --version
sweep 'no words' 2
sweep 'words of no command' 2 audit --limit x tree one
sweep 'a table that is none' 1 run --table tree tree none
sweep 'a table with a bad row' 1 run --table nested tree none
sweep 'a listing that is cut' 1 run cut none
sweep 'a further name of no node' 1 run lost none
sweep 'a list with an empty word' 1 run tree list
sweep 'a tightened list with an empty word' 1 tight tree list
sweep 'a promise twice, and what is wrong' 1 run --rules openbsd tree asks
sweep 'a request with no path, and what is wrong' 1 why --rules openbsd tree edits stat '/\x'
sweep 'a process that can still unveil' 1 objects --ever tree none
sweep 'no such list' 1 objects --ever --why --process all twice both
sweep 'a table by which nothing stays' 1 objects --ever --table stays tree one
sweep 'no such line' 1 objects --at 1 tree none
sweep 'no such process' 1 audit --limit 1 --process 9 tree none
sweep 'no such pair' 1 audit --limit 3 --after stat:/nope tree one
sweep 'a limit too large' 1 audit --limit 17 tree none
sweep 'no such file' 3 run tree missing
sweep 'no such table' 3 run --table missing tree none
echo "$runs runs, $wrong wrong"
[ "$wrong" = 0 ]
