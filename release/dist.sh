#!/bin/sh
# Makes out/pua-VERSION.tar.gz, from which any system with gcc or clang builds pua. The same commit
# gives the same bytes.
set -eu
here=$(cd "$(dirname "$0")" && pwd)
top=$(dirname "$here")
kit=$(dirname "$(dirname "$(readlink -f "$(command -v rt)")")")
out=$here/out
cd "$top"
if [ -n "$(git status --porcelain)" ]; then
	echo 'dist: something is not committed, and a release is made from a commit' >&2
	exit 1
fi
commit=$(git rev-parse HEAD)
time=$(git log -1 --format=%ct)

# The program has to be that of the commit: `rt run` builds what is not.
(cd crates/pua && rt run -- --version > /dev/null)
said=$(crates/pua/out/pua --version)
version=$(echo "$said" | sed -n 's/^pua //p')
kit_name=$(echo "$said" | sed -n 2p)
name=pua-$version
rm -rf "$out"
mkdir -p "$out/$name"
sh "$here/module.sh" crates/pua "$out/pua.ll"
python3 "$here/ir2c" "$out/pua.ll" > "$out/body.c"

# What stands at the head of pua.c.
sed -e "s/VERSION/$version/" -e "s/COMMIT/$commit/" -e "s/KIT/$kit_name/" "$here/title.c" |
	cat - "$out/body.c" > "$out/$name/pua.c"
cp "$here/runtime.c" "$out/$name/runtime.c"
cp "$here/Makefile.dist" "$out/$name/Makefile"
cp Makefile "$out/$name/install.mk"
git archive "$commit" LICENSE README.md docs examples man tests tools | tar xf - -C "$out/$name"
python3 "$here/licences.py" "$out/pua.ll" "$top/crates" "$kit/rattle" "$out/$name/licences"

cd "$out"
tar --sort=name --mtime="@$time" --owner=0 --group=0 --numeric-owner --mode=u=rwX,go=rX \
	--format=ustar -cf "$name.tar" "$name"
gzip -9n "$name.tar"
rm -rf "$name" body.c
sha256sum "$name.tar.gz"
