#!/bin/sh
# Tries out/pua-VERSION.tar.gz as whoever gets it has it: unpacked elsewhere, built by each
# compiler that is here, with all of its own tests, and tried where files, outputs and memory fail.
# And then with runtime.c over a layer that has OpenBSD's numbers.
set -eu
here=$(cd "$(dirname "$0")" && pwd)
archive=$(ls "$here"/out/pua-*.tar.gz)
name=$(basename "$archive" .tar.gz)
room=$(mktemp -d)
trap 'rm -rf "$room"' EXIT
# Tests that root runs as nobody have to find the program in it.
chmod 755 "$room"

# Builds and tries the program by the compiler that is named. The first one's objects are kept.
try() {
	echo "== $1"
	mkdir "$room/work"
	tar xzf "$archive" -C "$room/work"
	cd "$room/work/$name"
	began=$(date +%s)
	make -s CC="$1"
	echo "built in $(($(date +%s) - began)) seconds, $(stat -c %s pua) bytes"
	make -s CC="$1" check
	sh tools/faults/devices.sh pua
	if [ ! -d "$room/first" ]; then
		mv "$room/work" "$room/first"
		first=$1
	fi
	cd "$here"
	rm -rf "$room/work"
}

tried=0
for compiler in clang gcc 'musl-gcc -static'; do
	if command -v "${compiler%% *}" > /dev/null; then
		try "$compiler"
		tried=$((tried + 1))
	fi
done
if [ "$tried" = 0 ]; then
	echo 'distcheck: there is no clang, gcc or musl-gcc' >&2
	exit 1
fi

echo '== installed and taken away'
cd "$room/first/$name"
make -s install DESTDIR="$room/root" PREFIX=/usr
"$room/root/usr/bin/pua" --version
make -s uninstall DESTDIR="$room/root" PREFIX=/usr
if [ -n "$(find "$room/root" -type f)" ]; then
	find "$room/root" -type f
	exit 1
fi

echo "== over OpenBSD's numbers"
$first -O2 -o foreign pua.o "$here/tests/foreign.c"
perl tests/examples.t foreign > check.out 2>&1 || { cat check.out; exit 1; }
tail -n 1 check.out
sh tools/faults/devices.sh foreign
echo "distcheck: $tried builds passed"
