# What refused.sh and growth.sh begin with: `program` is the full name of the program that their word names,
# and a new folder, which is left again at the end, is the working one; in it lies refuse.so, by which a
# growth of memory is refused.
set -u
program=$(realpath "$1")
source=$(realpath "$(dirname "$0")")/refuse.c
room=$(mktemp -d)
trap 'rm -rf "$room"' EXIT
cd "$room" || exit 2
cc -O2 -Wall -shared -fPIC -o refuse.so "$source" || exit 2

# One run of the program with these words, its growth of this number refused; its answer stands in `status`,
# `written` and `told`, and `met` has bytes where a growth was refused.
refused() {
    at=$1
    shift
    LD_PRELOAD=$room/refuse.so REFUSE_AT=$at "$program" "$@" > written 2> told 9> met
    status=$?
}
