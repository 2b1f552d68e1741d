#!/bin/sh
# Tries runtime.c by itself: no compiler that is here warns of it, and its tables are right over
# OpenBSD's numbers.
set -eu
cd "$(dirname "$0")"
room=$(mktemp -d)
trap 'rm -rf "$room"' EXIT
for compiler in gcc clang musl-gcc; do
	if command -v $compiler > /dev/null; then
		$compiler -std=c99 -pedantic -Wall -Wextra -Werror -O2 -c ../runtime.c -o "$room/runtime.o"
		echo "$compiler has no word about runtime.c"
	fi
done
cc -w -O1 numbers.c -o "$room/numbers"
"$room/numbers"
