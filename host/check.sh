#!/usr/bin/env bash
# The tests of the hosts: stack and symbols of the library, include/committer.h under several compilers and standards, the C programs over it, then the
# Rust crate. All take the static library that `.ci/build` writes, or the one that COMMITTER_LIB names. What is built goes into
# target/host, or CARGO_TARGET_DIR.
set -euo pipefail
here="$(cd "$(dirname "${BASH_SOURCE[0]}")" && pwd)"
repository="$(dirname "$here")"
header="$repository/include/committer.h"
# relative paths are the caller's
export COMMITTER_LIB="$(realpath -m "${COMMITTER_LIB:-$repository/target/staticlib/libcommitter.a}")"
export CARGO_TARGET_DIR="$(realpath -m "${CARGO_TARGET_DIR:-$repository/target/host}")"
out="$CARGO_TARGET_DIR"
cc="${CC:-cc}"

if [ ! -f "$COMMITTER_LIB" ]; then
  echo "the static library is missing: there is no $COMMITTER_LIB" >&2
  echo "run \`.ci/build\` in the repository first, or set COMMITTER_LIB to the path of the archive" >&2
  exit 1
fi
for tool in "$cc" cargo objdump nm awk; do
  if ! command -v "$tool" >/dev/null 2>&1; then
    echo "$tool is not on the PATH" >&2
    exit 127
  fi
done

mkdir -p "$out"

fails() {
  echo "$*" >&2
  exit 1
}

# Stack: no loop that touches stack pages but at a function's entry. The check is tried first on a function that has one behind its entry.
printf '%s\n' '0000000000000000 <late>:' '   0:	test   %rdi,%rdi' '   3:	je     40 <late+0x40>' '   5:	mov    %rsp,%r11' '   8:	sub    $0x9000,%r11' \
  '   f:	sub    $0x1000,%rsp' '  16:	cmp    %r11,%rsp' '  19:	jne    f <late+0xf>' > "$out/late.txt"
if awk -f "$here/stack.awk" "$out/late.txt" > /dev/null 2>&1; then
  fails "stack.awk passes a loop behind a function's entry"
fi
objdump -dr --no-show-raw-insn "$COMMITTER_LIB" > "$out/library.txt"
awk -f "$here/stack.awk" "$out/library.txt" > "$out/stack.txt"
# what the header says of each function holds; the layout's number is no part of the name there
while read -r function bytes; do
  name="$(sed 's/^committer_//; s/^layout_[0-9]*$/layout/' <<< "$function")"
  said="$(sed -n "s/^#define COMMITTER_STACK_\([A-Z_]*\) \([0-9]*\)u.*/\L\1\E \2/p" "$header" | sed -n "s/^$name //p")"
  if [ -z "$said" ] || [ "$bytes" -gt "$said" ]; then
    fails "$function takes $bytes bytes of stack; the header says ${said:-nothing}"
  fi
done < "$out/stack.txt"

# Nothing is kept below the stack pointer but in the functions that the header names; the address that a stack loop ends at is none that is
# read or written.
awk '/^[0-9a-f]+ <.*>:$/ { name = substr($2, 2, length($2) - 3) } /-0x[0-9a-f]+\(%rsp/ && !/[^a-z]lea[^a-z]/ { print name }' "$out/library.txt" | sort -u > "$out/below.txt"
sed -n 's/^ \* It keeps something below the stack pointer in: \(.*\)\.$/\1/p' "$header" | sed 's/, /\n/g' | sort | diff - "$out/below.txt"

# Symbols: the library needs from outside what the header says, defines the functions that the header declares, and has no variables.
nm -u "$COMMITTER_LIB" | sed -n 's/^ *U //p' | sort > "$out/needed.txt"
sed -n 's/^ \* It needs from outside: \(.*\)\.$/\1/p' "$header" | sed 's/, /\n/g' | sort | diff - "$out/needed.txt"
nm -g --defined-only "$COMMITTER_LIB" | sed -n 's/^[0-9a-f]* T //p' | sort > "$out/defined.txt"
"$cc" -E -P -x c "$header" | sed -n 's/^[a-z0-9_]* \(committer_[a-z0-9_]*\)(.*/\1/p' | sort | diff - "$out/defined.txt"
if nm "$COMMITTER_LIB" | grep -E ' [BbDdCGgSs] '; then
  fails "the library has variables"
fi
echo "ok stack and symbols of the library"

# The header, with every warning that is turned on an error: C and C++ of several standards, for a hosted and a freestanding environment.
if [ "$(grep '^#include' "$header" | sort | tr -d '\n')" != '#include <stddef.h>#include <stdint.h>' ]; then
  fails "the header includes more than stddef.h and stdint.h"
fi
warnings=(-Wall -Wextra -Wpedantic -Wconversion -Wsign-conversion -Wshadow -Wundef -Wmissing-field-initializers -Werror)
compile_header() {
  local compiler="$1" options=("${@:2}") environment
  for environment in -ffreestanding ''; do
    "$compiler" "${options[@]}" $environment -O2 "${warnings[@]}" -I "$repository/include" -c "$here/ctest/header.c" -o "$out/header.o"
  done
  "$compiler" "$out/header.o" "$COMMITTER_LIB" -o "$out/header"
  "$out/header" || fails "ctest/header.c: line $? (${compiler} ${options[*]})"
}
for compiler in "$cc" clang; do
  if ! command -v "$compiler" >/dev/null 2>&1; then
    echo "left out: $compiler, which is not on the PATH"
    continue
  fi
  for standard in c99 c11 c17; do
    compile_header "$compiler" "-std=$standard" -Wc++-compat
  done
done
for compiler in "${CXX:-c++}" clang++; do
  if ! command -v "$compiler" >/dev/null 2>&1; then
    echo "left out: $compiler, which is not on the PATH"
    continue
  fi
  for standard in c++11 c++14 c++17 c++20; do
    compile_header "$compiler" -x c++ "-std=$standard" -Wold-style-cast
  done
done
echo "ok ctest/header.c"

# A header of another layout doesn't link, and the message names the layout's function: of a program that only includes it too, and where the linker
# drops what nothing uses, if the compiler can keep it from that. With the layout's own number the same program links.
mkdir -p "$out/layout/host"
sed 's/^#define COMMITTER_LAYOUT .*/#define COMMITTER_LAYOUT 9999/' "$header" > "$out/layout/committer.h"
printf '#include "committer.h"\nint main(void) { return 0; }\n' > "$out/none.c"
links() {
  "$cc" -std=c11 -O2 "${@:2}" -I "$1" "$out/none.c" "$COMMITTER_LIB" -o "$out/none"
}
refuses_layout() {
  if "$@" > "$out/layout/message.txt" 2>&1; then
    fails "a library of another layout is linked: $*"
  fi
  grep -q committer_layout_9999 "$out/layout/message.txt" || fails "the message of a wrong layout doesn't name its function: $(cat "$out/layout/message.txt")"
}
links "$repository/include"
refuses_layout links "$out/layout"
dropping=(-ffunction-sections -fdata-sections -Wl,--gc-sections)
links "$repository/include" "${dropping[@]}"
if printf '#ifdef __has_attribute\n#if __has_attribute(retain)\nyes\n#endif\n#endif\n' | "$cc" -E -P - | grep -q yes; then
  refuses_layout links "$out/layout" "${dropping[@]}"
fi
# the crate
cp -r "$here/Cargo.toml" "$here/Cargo.lock" "$here/build.rs" "$here/src" "$here/examples" "$out/layout/host"
sed -i 's/committer_layout_[0-9]*/committer_layout_9999/' "$out/layout/host/src/sys.rs"
refuses_layout cargo build --manifest-path "$out/layout/host/Cargo.toml" --target-dir "$out/layout/target" --release --offline --example board
echo "ok another layout isn't linked"

compile_and_link() {
  "$cc" -std=c11 -O2 "${warnings[@]}" -I "$repository/include" "$@"
}
compile_and_link "$here/ctest/main.c" "$COMMITTER_LIB" -o "$out/ctest"
"$out/ctest"
# the words of the refusals, without the library
compile_and_link "$here/ctest/refusals.c" -o "$out/refusals"
"$out/refusals" | diff "$here/ctest/refusals.txt" -
echo "ok ctest/refusals.c"
# the example writes the lines beside it
compile_and_link "$here/examples/board.c" "$COMMITTER_LIB" -o "$out/board"
"$out/board" | diff "$here/examples/board.txt" -
echo "ok examples/board.c"

cd "$here"
cargo test --release --offline
cargo run --quiet --release --offline --example board
