#!/bin/sh
# Keeps the LLVM module of a program that is proved and built, as text:
#
#     sh release/module.sh crates/pua MODULE.ll
#
# Rattle's compiler hands the whole program, its libraries included, as one module to the clang of
# a folder that it is told. Here it is told a folder of links to the kit's own tools, with a clang
# that keeps a copy of the module and then calls the kit's. The kit is not touched. The compiler
# checks the crate before, so only what is proved becomes a module. What `rt run` proved is kept in
# out/, and it takes it from there.
set -eu
if [ $# -ne 2 ]; then
	echo 'usage: module.sh CRATE MODULE.ll' >&2
	exit 2
fi
folder=$(cd "$1" && pwd)
module=$(cd "$(dirname "$2")" && pwd)/$(basename "$2")
name=$(basename "$folder")
top=$(dirname "$(dirname "$folder")")
kit=$(dirname "$(dirname "$(readlink -f "$(command -v rt)")")")
room=$(mktemp -d)
trap 'rm -rf "$room"' EXIT

mkdir -p "$room/toolchain/bin"
ln -s "$kit/toolchain/lib" "$room/toolchain/lib"
for tool in llvm-ar ld.lld rattle-x64; do
	ln -s "$kit/toolchain/bin/$tool" "$room/toolchain/bin/$tool"
done
cat > "$room/toolchain/bin/clang" <<END
#!/bin/sh
if [ -f module.bc ]; then cp module.bc '$room/module.bc'; fi
exec '$kit/toolchain/bin/clang' "\$@"
END
chmod +x "$room/toolchain/bin/clang"

# The words of `rt run`, but for the folder: the crate's libraries, and where those of theirs are.
set -- --crate-name "$name" src/main.rt
set -- "$@" --extern "core=$kit/rlibs/core.rlib" --extern "std=$kit/rlibs/std.rlib"
for library in $(sed -n "s/^$name: *//p" "$top/crates.txt"); do
	if [ -d "$top/crates/$library" ]; then
		set -- "$@" --extern "$library=$top/crates/$library/out/rlib/$library.rlib"
	else
		set -- "$@" --extern "$library=$kit/rlibs/$library.rlib"
	fi
done
for built in "$top"/crates/*/out/rlib; do
	set -- "$@" -L "dependency=$built"
done
cd "$folder"
"$kit/bin/rattle" build "$@" -L "dependency=$kit/rlibs" --links "$name=" \
	--antt-project "$kit/rattle/logic/antt-project.json" --logic-built "$kit/logic_built" \
	--incremental out/incremental --cpu x86-64 --toolchain "$room/toolchain" --backend llvm \
	-o "$room/program.o" > "$room/said" 2>&1 || { cat "$room/said" >&2; exit 1; }
grep '^logic=proved ' "$room/said"
"$kit/toolchain/bin/clang" --target=x86_64-unknown-linux-gnu -x ir "$room/module.bc" \
	-S -emit-llvm -Xclang -disable-llvm-passes -o "$module"
