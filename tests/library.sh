#!/usr/bin/env bash
# The library as others link it: the archive, the header against it and alone, the words of its refusals, the packet limit in every call, the word
# of a packet that is at fault, every line in every call, the examples in C and Rust built and run.
set -euo pipefail
cd "$(dirname "$0")/.."
. tests/machine.sh
need python3 python3
need_cc
need g++ g++
need nm binutils

work=$(mktemp -d)
trap 'rm -rf "$work"' EXIT
strict=(-Wall -Wextra -pedantic -Werror)

fail() {
  echo "library: $1" >&2
  exit 1
}

# says NAME EXPECTED PROGRAM: the program ends well, and prints what is expected.
says() {
  local said
  said=$(run "$3") || fail "$1: it did not end well, and printed:"$'\n'"$said"
  [ "$said" = "$2" ] || fail "$1 printed:"$'\n'"$said"
}

need_archive

nm "$archive" >"$work/symbols"
python3 tests/header.py include/vanc.h "$work/symbols" TOOLCHAIN crates/refusals/src/lib.rt crates/frame/src/lib.rt \
  crates/c_names/src/lib.rt crates/rules/src/lib.rt crates/mxf/src/lib.rt

# ---- the header alone, as C and as C++: by clang too where it is

echo '#include "vanc.h"' | tee "$work/alone.c" >"$work/alone.cc"
cc_for -std=c99 "${strict[@]}" -I include -fsyntax-only "$work/alone.c"
compilers=(gcc)
for compiler in clang g++ clang++; do
  command -v "$compiler" >/dev/null || continue
  case $compiler in
  *++) "$compiler" -std=c++11 "${strict[@]}" -I include -fsyntax-only "$work/alone.cc" ;;
  *) "$compiler" -std=c99 "${strict[@]}" -I include -fsyntax-only "$work/alone.c" ;;
  esac
  compilers+=("$compiler")
done
echo "include/vanc.h: compiles alone with ${compilers[*]}"

# ---- the words

# The last is a refusal's number only in its lower 32 bits.
cat >"$work/words.c" <<'END'
#include "vanc.h"

#include <inttypes.h>
#include <stdio.h>

static void print(uint64_t number)
{
    printf("%" PRIu64 " %s\n", number, vanc_refusal_text(number));
}

int main(void)
{
    for (uint64_t number = 0; number <= 21; number++) {
        print(number);
    }
    print(4294967297);
    return 0;
}
END
words="0 done
1 the packing is neither 1 (packs of five) nor 2 (long packs)
2 the sheet's counts do not agree with its length
3 the system is not 1 (1080/60i), 2 (1080/50i) or 3 (720/60p)
4 the area is not as long as the system's: 9600 bytes, or 11520 in 1080/50i
5 more packets than the limit of 1275
6 the line is past the system's last, or the flags are over 3
7 it does not begin with 000h 3FFh 3FFh, or has fewer than 7 words
8 a word from DID to the last user word is not its byte with parity
9 it is cut off: its DC asks for more words than are left
10 its checksum word is wrong
11 packets and locations differ in number
12 the frame has no room for all packets in this packing
13 the packs are not laid by the rules of SMPTE 375M
14 its length or its fill is wrong
15 its stored checksum is wrong
16 its line is 0 or past the system's last
17 the result is longer than the room for it
18 it has no line, which an element asks for
19 the element is not of the form of SMPTE ST 436-1 from here on
20 its line is a picture line, or kept free for switching (7, 8, 569, 570)
21 no number of a refusal
4294967297 no number of a refusal"
cc_for -std=c99 "${strict[@]}" -O2 -I include "$work/words.c" -o "$work/words"
says "vanc_refusal_text" "$words" "$work/words"
echo "vanc_refusal_text: the words of every number"

# ---- the packet limit

cc_for -std=c99 "${strict[@]}" -O2 -I include tests/limit.c "$archive" -o "$work/limit"
run "$work/limit" || fail "the packet limit is not kept"

# ---- the word at fault

cc_for -std=c99 "${strict[@]}" -O2 -I include tests/words.c "$archive" -o "$work/at_fault"
run "$work/at_fault" crates/packet_cases/data/words291.txt || fail "another word is told than the one at fault"

# ---- the lines

cc_for -std=c99 "${strict[@]}" -O2 -I include tests/lines.c "$archive" -o "$work/lines"
run "$work/lines" || fail "a line is taken that is not allowed, or refused that is"

# ---- the examples

# as_written EXAMPLE EXPECTED: the lines in the example's first comment build it, as they stand, in a folder that has the checkout's folders in it, so
# that no program is left in the checkout. The first line is not run: it makes what `need_archive` makes, and the command besides.
as_written() {
  local lines name folder
  name=$(basename "${1%.*}")
  folder=$work/$(basename "$1").built
  mkdir "$folder"
  ln -s "$PWD/include" "$PWD/examples" "$PWD/target" "$folder"
  mapfile -t lines < <(sed -nE '/^$|\*\//q; s,^( \*|//!)     ,,p' "$1")
  [ "${#lines[@]}" = 2 ] && [ "${lines[0]}" = "./build" ] || fail "$1: in its comment there is not ./build and one line more"
  (cd "$folder" && bash -c "${lines[1]}") || fail "$1: '${lines[1]}' does not build it"
  says "$1, built as written" "$2" "$folder/$name"
}

both='laid packs 5 bytes 16
read packing 1 packets 2 numbers 24
laid packs 1 bytes 16
read packing 2 packets 2 numbers 24'
walked='packet at 0 of 9 bytes
packet at 9 of 7 bytes'
tested='a packet of type 2
refused 8, word 7: a word from DID to the last user word is not its byte with parity'
last='the same sheet came back, in both packings'
frame_c=$both$'\n'$walked$'\n'$tested$'\n'$last
frame_rs=$both$'\n'$last
element_c='written packets 1 bytes 39
written packets 1 bytes 41
read packets 1 numbers 15
refused 19 at 15: the element is not of the form of SMPTE ST 436-1 from here on
refused 10 at 0 8: its checksum word is wrong
written packets 1 bytes 44
kept as it was: its checksum word is wrong, word 8'

cc_for -std=c99 "${strict[@]}" -O2 -I include examples/frame.c "$archive" -o "$work/frame_c"
says examples/frame.c "$frame_c" "$work/frame_c"
cc_for -std=c99 "${strict[@]}" -O2 -I include examples/element.c "$archive" -o "$work/element_c"
says examples/element.c "$element_c" "$work/element_c"
echo "examples/frame.c, element.c: built and run"

if [ "$(uname -m)" = x86_64 ]; then
  need cc gcc
  need rustc rustc
  as_written examples/frame.c "$frame_c"
  as_written examples/element.c "$element_c"
  as_written examples/frame.rs "$frame_rs"
  echo "examples/frame.c, element.c, frame.rs: built as their comments say, and run"
else
  echo "examples/frame.rs, and the lines in the examples' comments: skipped, this machine's cc and rustc do not link x86-64 programs"
fi
echo "library: $SECONDS s"
