#!/usr/bin/env bash
# The library beside a second implementation of the rules (tests/second, in Rust), on cases made from a seed:
#
#     tests/second.sh [--long] [SEED [CASES]]
#
# A mismatch is printed with its seed and number and the smallest case that was found; `tests/second.sh --case SEED NUMBER` runs one again.
set -euo pipefail
cd "$(dirname "$0")/.."
. tests/machine.sh
need_cc
need rustc rustc

work=$(mktemp -d)
trap 'rm -rf "$work"' EXIT
need_archive
cc_for -std=c11 -O2 -Wall -Wextra -Werror -I include tests/second/answer.c "$archive" -o "$work/answer"
rustc --edition 2021 -O -o "$work/second" tests/second/main.rs
rustc --edition 2021 --test -o "$work/figures" tests/second/main.rs
quietly "$work/figures"

# On an x86-64 core 190,000 cases take 33 s, and 32,000 with fences 7 s. An emulator takes about ten times as long: there a tenth of them runs, in
# which every number is met on every call too, and --long runs all.
answer=("$work/answer") cases=190000 fenced=32000
if [ "$(uname -m)" != x86_64 ]; then
  answer=(qemu-x86_64 -L /usr/x86_64-linux-gnu "$work/answer")
  [ "${1-}" = --long ] || cases=19000 fenced=3200
fi
[ "${1-}" != --long ] || shift

# differs FILE OLD NEW [CASES]: the comparison has to be able to fail, so with one rule changed in a copy of the second implementation it finds a
# difference. Built in a second without optimisation, with sums that wrap as they do with it; few cases are enough, and none is made smaller.
differs() {
  rm -rf "$work/wrong"
  cp -r tests/second "$work/wrong"
  sed -i "s/$2/$3/" "$work/wrong/$1"
  ! cmp -s "tests/second/$1" "$work/wrong/$1" || { echo "second: '$2' does not stand in $1"; exit 1; }
  sed -i 's/from_secs(30)/from_secs(0)/' "$work/wrong/shrink.rs"
  rustc --edition 2021 -C debug-assertions=off -o "$work/wrong/second" "$work/wrong/main.rs"
  if "$work/wrong/second" 375 "${4-1500}" "${answer[@]}" >"$work/log" || ! grep -q '^MISMATCH' "$work/log"; then
    echo "second: '$3' for '$2' in $1 was not found"
    exit 1
  fi
}

if [ "${1-}" = --case ]; then
  "$work/second" --case "$2" "$3" "${answer[@]}"
else
  differs packet.rs '% 512' '% 256'
  differs rules.rs 'place > string.last_pack' 'place >= string.last_pack'
  differs element.rs 'coding == luma {' 'coding == colour {'
  differs element.rs '(19, self.element.len() as u64)' '(19, self.at as u64)'
  differs element.rs '18, k)' '18, k.min(served.len()))'
  # The packet limit one too low, and the place of a late packet in ten bits.
  differs rules.rs 'MOST_PACKETS: usize = 1_275' 'MOST_PACKETS: usize = 1_274'
  differs rules.rs '(number, k as u64))' '(number, k as u64 % 1_024))' 3000
  # The word at fault: counted from DID or from the first user word; for 9 where CS would stand; for 7 the missing word before a wrong one.
  differs packet.rs 'fault(8, first + k)' 'fault(8, k)'
  differs packet.rs 'fault(9, words.len())' 'fault(9, dc + 6)'
  differs packet.rs 'wrong_flag.unwrap_or(words.len())' 'wrong_flag.filter(|_| words.len() > 6).unwrap_or(words.len())'
  # The lines: one that is kept free for switching, the ends of two runs, and 20 on one location or packet before what comes before it.
  differs lines.rs '(7, 8), (569, 570)' '(7, 8), (569, 569)'
  differs lines.rs '(561, 583)' '(561, 584)'
  differs lines.rs '(1, 25)' '(1, 26)'
  differs rules.rs 'refuse_if(line > system' 'refuse_if(system.is_picture_line(line), 20, k)?; refuse_if(line > system'
  differs packet.rs 'if checksum !=' 'if system.allows((danc[1] % 16) as u16 * 128 + (danc[0] % 128) as u16) \&\& checksum !='
  differs element.rs 'let coding = fields' 'refuse_if(!system.allows(line as u16), 20, 0)?; let coding = fields'
  # Ten bits as found: CS tested after all, CS over 3FFh taken, the samples from the low end, and DC by all of its ten bits.
  differs packet.rs 'Ok(words\[3..7 + dc\]' 'match packet_in_front(words) { Err(f) if f.number == 10 => return Err(f), _ => {} }; Ok(words[3..7 + dc]'
  differs packet.rs '6, 7 + dc, has_ten_bits' '6, 6 + dc, has_ten_bits'
  differs element10.rs '22 - 10 \* place' '2 + 10 * place'
  differs element10.rs '\[2\] & 0xFF' '[2] \& 0x3FF'
  echo "second: a changed rule is found"
  # Each buffer ends at a page that cannot be touched.
  "$work/second" 376 "$fenced" "${answer[@]}" fence >"$work/log" || { cat "$work/log"; exit 1; }
  echo "second: $(tail -n 1 "$work/log"), and no byte read behind a buffer"
  "$work/second" "${1-375}" "${2-$cases}" "${answer[@]}"
  # The baselines that the library's cost is compared with have to do the same work. They have no walk and no test of a packet alone: those calls
  # are the library's.
  calls=(-Dvanc_lay=baseline_lay -Dvanc_read=baseline_read -Dvanc_mxf_write=baseline_mxf_write -Dvanc_mxf_read=baseline_mxf_read
    -Dvanc_mxf_write10=baseline_mxf_write10 -Dvanc_mxf_read10=baseline_mxf_read10)
  for baseline in plain tuned; do
    cc_for -std=c11 -O3 -I include -I bench "${calls[@]}" -c tests/second/answer.c -o "$work/answer.o"
    cc_for -std=c11 -O3 -I include -I bench -c "bench/$baseline.c" -o "$work/baseline.o"
    cc_for "$work/answer.o" "$work/baseline.o" "$archive" -o "$work/answer"
    "$work/second" 377 15000 "${answer[@]}" >"$work/log" || { cat "$work/log"; exit 1; }
    echo "second: bench/$baseline.c: $(tail -n 1 "$work/log")"
  done
fi
echo "second: $SECONDS s"
