#!/usr/bin/env bash
# The command `vanc`, and the lister, on files, as an operator or a script runs them. Of every run: the exit status, standard output and standard
# error byte for byte, and every file afterwards: bytes, modes, owners, links, and that none is beside them.
#
# In order: help; there and back; arguments; names; outputs that are no files; the same file twice; links; modes and owners; files without permission;
# sheets, areas and elements at their limits; a lighting desk's cues; refusals and their words; every line; the word at fault of a packet; packets as
# found, in ten bits; elements of other programs; streams; calls that fail; runs that are killed, and many at once; scripts.
set -euo pipefail
export LC_ALL=C
umask 022
# A run that does not end is ended by the system in the end.
ulimit -S -t 120
cd "$(dirname "$0")/.."
. tests/machine.sh
need python3 python3
need_cc

top=$PWD
work=$(mktemp -d)
trap 'rm -rf "$work"' EXIT
chmod 755 "$work"
made=$work/made
samples=$top/samples
mkdir "$made" "$work/here"
need_command
need_lister
cc_for -std=c99 -Wall -Wextra -pedantic -Werror -O1 -shared -fPIC tests/failing.c -o "$work/failing.so"
python3 tests/command_files.py "$made"
# The x86-64 executable: on another processor $command may be a script that runs it.
program=$work/vanc
cp "$top/${executable:-$command}" "$program"
cd "$work/here"
done_tests=0

# The witness of the folder (tests/command_folder.py) hears on 9 and answers on 8.
coproc witness { exec python3 "$top/tests/command_folder.py"; }
exec 8<&"${witness[0]}" 9>&"${witness[1]}"

# What starts an x86-64 program here.
starter=()
[ "$(uname -m)" = x86_64 ] || starter=(qemu-x86_64 -L /usr/x86_64-linux-gnu)

root=false
[ "$(id -u)" != 0 ] || root=true

# A test sets these for a run: the calls that fail (tests/failing.c); the function that starts the command; what stands before each line on standard
# error; other words that would be as right; words in place of a number's own; a second line of a refusal; the word of a packet that is refused. The
# run is in `this`.
fault= start=vanc front='vanc: ' or= instead= second= at_word=0 this=

# ---- how a run is made and looked at

# fail WORDS: the run that failed, and why, and no further.
fail() {
  echo "command: $this: $1" >&2
  exit 1
}

# started PROGRAM ARGUMENTS..: an x86-64 program, with the calls that fail.
started() {
  if [ -z "$fault" ]; then
    "${starter[@]}" "$@"
  elif [ ${#starter[@]} = 0 ]; then
    LD_PRELOAD=$work/failing.so FAULT=$fault MET=$work/met "$@"
  else
    "${starter[@]}" -E LD_PRELOAD="$work/failing.so" -E FAULT="$fault" -E MET="$work/met" "$@"
  fi
}

# The command, and the lister.
vanc() { started "$program" "$@"; }
lister() { started "$top/$lister"; }

# The command, with ten seconds to end: it could wait for a FIFO.
timely() { timeout 10 "${starter[@]}" "$program" "$@"; }

# text FILE: its bytes, in `text`.
text() {
  ! IFS= read -r -d '' text <"$1" || fail "a NUL in $1"
}

# lines WORDS: WORDS as standard error has them, in `lines`.
lines() { lines=${1:+$front${1//$'\n'/$'\n'$front}$'\n'}; }

# runs ARGUMENTS..: the command is run. Its status is in `status`, what it prints in `out` and `err`, and whether a call failed in `met`.
runs() {
  this="$start $*"
  this="${this:0:300}${fault:+, where '$fault' fails}"
  [ -z "$fault" ] || : >"$work/met"
  status=0
  "$start" "$@" >"$work/stdout" 2>"$work/stderr" || status=$?
  text "$work/stdout"
  out=$text
  text "$work/stderr"
  err=$text
  met=false
  [ -z "$fault" ] || [ ! -s "$work/met" ] || met=true
  done_tests=$((done_tests + 1))
}

# expect STATUS STDOUT STDERR ARGUMENTS..: the command ends with STATUS, and prints STDOUT and a line end, and STDERR with "vanc: " before each line:
# nothing, where that is empty.
expect() {
  runs "${@:4}"
  [ "$status" = "$1" ] || fail "status $status, not $1; it said '$err'"
  [ "$out" = "${2:+$2$'\n'}" ] || fail "printed '$out', not '$2'"
  lines "$3"
  if [ "$err" != "$lines" ]; then
    lines "${or:-$3}"
    [ "$err" = "$lines" ] || fail "said '$err', not '$lines'"
  fi
}

# ask WORDS..: the witness's answer is in `answer`.
ask() {
  local IFS=$'\t'
  printf '%s\n' "$*" >&9
  IFS= read -r answer <&8 || fail "no witness to '$*'"
}

# sees WORDS..: the witness is asked, and all is as it should be.
sees() {
  ask "$@"
  [ -z "$answer" ] || fail "$answer"
}

# keep: what is here now is what is looked for after a run.
keep() { sees keep; }

# fresh FILE..: copies of these files, and a folder, are all that there is.
fresh() {
  find . -mindepth 1 -delete
  mkdir folder
  cp "$@" .
  keep
}

# wrong STDERR ARGUMENTS..: the command is called wrongly, or a file cannot be read: nothing is printed, nothing is made.
wrong() {
  expect 2 "" "$@"
  sees untouched
}

# refused NUMBER PLACE WHAT ARGUMENTS..: the rules refuse it. WHAT is what is at fault, and where. The commands that are given a sheet print the word
# behind the place, whatever the number.
refused() {
  local printed="refused $1 at $2"
  [[ $4 == *read ]] || printed+=" $at_word"
  expect 1 "$printed" "$3: ${instead:-${refusals[$1]}}${second:+$'\n'$second}" "${@:4}"
  sees untouched
}

# gives FILE RIGHT STDOUT ARGUMENTS..: FILE becomes what RIGHT is, and keeps its mode and owner; every other file is as it was. It is put back.
gives() {
  expect 0 "$3" "" "${@:4}"
  sees became "$1" "$2"
}

# The commands that write, each with one job to do: the last two with --ten, where packets are damaged.
commands=(lay read mxf-write mxf-read)
writers=("${commands[@]}" mxf-write-ten mxf-read-ten)

# job WRITER OUTPUT [INPUT]: the arguments are in `job`, what it reads in `input`, what OUTPUT has to become in `right`, what it prints in `line`,
# what the usage calls input and output in `called`. Before it OUTPUT is a copy of frame.area, or, but for laying, no file.
job() {
  output=$2
  case $1 in
  lay) input=${3-cue.sheet} right=$made/laid_1.area line="laid packs 10 bytes 30" called=(SHEET AREA) job=(lay 1 "$input" "$2") ;;
  read) input=${3-laid_1.area} right=$samples/cue.sheet line="read packing 1 packets 3 numbers 40" called=(AREA SHEET) job=(read 1 "$input" "$2") ;;
  mxf-write) input=${3-film.sheet} right=$made/film.anc line="written packets 2 bytes 59" called=(SHEET ELEMENT) job=(mxf-write 0 "$input" "$2") ;;
  mxf-read) input=${3-film.anc} right=$made/film_0.sheet line="read packets 2 numbers 25" called=(ELEMENT SHEET) job=(mxf-read 3 0 "$input" "$2") ;;
  mxf-write-ten)
    job mxf-write "$2" "${3-found.sheet}"
    right=$made/found.anc line="written packets 2 bytes 66" job+=(--ten)
    ;;
  mxf-read-ten)
    job mxf-read "$2" "${3-found.anc}"
    right=$made/found_0.sheet job+=(--ten)
    ;;
  esac
}

# fresh_jobs: what the jobs read, and a file for them to replace.
inputs=(cue.sheet laid_1.area film.sheet film.anc found.sheet found.anc)
fresh_jobs() { fresh "$samples/"{cue.sheet,film.sheet,frame.area} "$made/"{laid_1.area,film.anc,found.sheet,found.anc}; }

# works WRITER OUTPUT [FILE [INPUT]]: the job is done, to FILE where that is another name of OUTPUT.
works() {
  job "$1" "$2" "${@:4}"
  gives "${3:-$2}" "$right" "$line" "${job[@]}"
}

# stops STDERR WRITER OUTPUT [INPUT]: the job is not done, which is said before anything is made.
stops() {
  job "${@:2}"
  wrong "$1" "${job[@]}"
}

# poke FILE PLACE BYTE: that byte of FILE, as printf takes it.
poke() { printf "$3" | dd of="$1" bs=1 seek="$2" conv=notrunc status=none; }

# length FILE N: FILE cut, or lengthened by zeros, to N bytes.
length() { truncate -s "$2" "$1"; }

# wide N FILE: a name of FILE that has N bytes, in `wide`.
wide() {
  printf -v wide '%*s' $(($1 - 1 - ${#2})) ''
  wide=.${wide// //}$2
}

# ---- what it says

# The packet limit, and the bytes of the longest element that a sheet file gives: 22, and for each packet ten more than it has words. In ten bits that
# is 22, 14 for each packet, four for three samples, and four more for each packet whose last four bytes have one sample: DID to CS of a DC that is a
# multiple of three. The file's one number over goes to a packet's second one.
most=$(sed -n 's/^LIMIT = //p' "$top/tests/reference.py")
longest=$((22 + 32768 - 4 - 2 * most + 10 * most))
longest_ten=$((22 + 14 * most + 4 * ((32768 - 4 - 9 * most) / 3 + 2 * most)))
refusals=(
  ''
  'the packing is neither 1 (packs of five) nor 2 (long packs)'
  "the sheet's counts do not agree with its length"
  'the system is not 1 (1080/60i), 2 (1080/50i) or 3 (720/60p)'
  "the area is not as long as the system's: 9600 bytes, or 11520 in 1080/50i"
  "more packets than the limit of $most"
  "the line is past the system's last, or the flags are over 3"
  'it does not begin with 000h 3FFh 3FFh, or has fewer than 7 words'
  'a word from DID to the last user word is not its byte with parity'
  'it is cut off: its DC asks for more words than are left'
  'its checksum word is wrong'
  'packets and locations differ in number'
  'the frame has no room for all packets in this packing'
  'the packs are not laid by the rules of SMPTE 375M'
  'its length or its fill is wrong'
  'its stored checksum is wrong'
  "its line is 0 or past the system's last"
  'the result is longer than the room for it'
  'it has no line, which an element asks for'
  'the element is not of the form of SMPTE ST 436-1 from here on'
  'its line is a picture line, or kept free for switching (7, 8, 569, 570)'
)
over="a word over 3FFh has more than ten bits"
even="a sheet file has an even number of bytes, 65536 at most"
unknown="is no command; vanc --help lists them"
neither="is neither a number nor 1080/60i, 1080/50i or 720/60p"
regular="only a regular file is replaced"
unchanged="no file was changed"
absent="No such file or directory"
large="File name too long"
denied="Permission denied"
space="No space left on device"
version="vanc $(sed -n 's/^#define VANC_VERSION "\(.*\)"$/\1/p' "$top/include/vanc.h"), proved with $(cat "$top/TOOLCHAIN")"
listing=$'system 1 packets 3 bytes 30 packs 10\n0 9 0 45 01 2\n1 561 3 61 01 6\n2 0 2 60 60 1'
declare -A usage=(
  [list]="vanc list [SHEET]"
  [lay]="vanc lay PACKING SHEET AREA"
  [read]="vanc read SYSTEM AREA SHEET"
  [mxf-write]="vanc mxf-write FI SHEET ELEMENT [--ten]"
  [mxf-read]="vanc mxf-read SYSTEM FI ELEMENT SHEET [--ten]"
)

# ---- help

fresh_jobs

# quote WORD: as the command quotes it, in `quoted`: of a word of more than 4,096 bytes the first 64.
quote() {
  quoted="'$1'"
  [ ${#1} -le 4096 ] || quoted="'${1:0:64}..'"
}

# prints ARGUMENTS..: the command ends well and prints some lines, which are in `printed`, without the last line end.
prints() {
  runs "$@"
  [ "$status" = 0 ] && [ -z "$err" ] || fail "status $status; it said '$err'"
  [[ $out == *[^$'\n']$'\n' ]] || fail "printed '$out'"
  printed=${out%$'\n'}
  sees untouched
}

prints --help
overview=$printed
expect 0 "$overview" "" help
front='' wrong "$overview"
for name in list "${commands[@]}"; do
  [[ $overview == *"vanc $name"* ]] || fail "nothing of $name in '$overview'"
  prints help $name
  [[ $printed == *"${usage[$name]}"* ]] || fail "no '${usage[$name]}' in '$printed'"
  [ "$printed" != "$overview" ] || fail "it is the overview"
  expect 0 "$printed" "" $name --help
  expect 0 "$printed" "" $name --help <folder
  [[ $name != mxf-* || $printed == *$'\n'"--ten: "* ]] || fail "nothing of --ten in '$printed'"
done
[[ $overview == *$'\n'"With --ten "*mxf-write*mxf-read* ]] || fail "nothing of --ten in '$overview'"

# The manual page has the same usage lines.
synopsis=$(sed -n '/^\.Sh SYNOPSIS/,/^\.Sh DESCRIPTION/p' "$top/man/vanc.1" | sed -E '
  s/^\.Op (.*)/[\1]/; s/^\.//; s/Fl -/--/; s/Cm //; s/Ar (.*)/\U\1/; s/^Nm$/\nvanc/' | paste -sd ' ')
for name in list "${commands[@]}"; do
  this="man/vanc.1"
  [[ $synopsis == *"  ${usage[$name]}  "* ]] || fail "no '${usage[$name]}' in '$synopsis'"
done
expect 0 "$version" "" --version
for name in "" x LAY la lay2 " lay" "lay " layer lister reader mxf_write mxf-Read -h -help --hel --helpx --Version --ten -- - / "'" '%s%n%d' "ä b" \
  "$(printf '%065d' 1)" "$(printf '%04096d' 1)" "$(printf '%04097d' 1)" "$(printf '%05000d' 1)"; do
  quote "$name"
  wrong "$quoted $unknown" "$name"
  wrong "$quoted $unknown" "$name" 1 cue.sheet frame.area
  wrong "$quoted $unknown" "$name" --help
  wrong "$quoted $unknown" help "$name"
done
wrong "'refusals' $unknown" refusals
for name in Refusals refusal; do
  wrong "'$name' $unknown" help $name
done
expect 0 "$overview" "" help help
expect 0 "$overview" "" help --help
wrong "usage: vanc --version" help --version
wrong "usage: vanc help [NAME]" help lay read
wrong "usage: vanc help [NAME]" help refusals 1
wrong "usage: vanc help [NAME]" help "" ""
wrong "usage: vanc --help" --help lay
wrong "usage: vanc --version" --version --help

# The words of the refusals: as above, and as the header has them.
table=
for number in {1..20}; do
  printf -v row '%2d  %s\n' "$number" "${refusals[number]}"
  table+=$row
done
expect 0 "${table%$'\n'}" "" help refusals
cat >"$work/words.c" <<'C'
#include <stdio.h>
#include "vanc.h"

int main(void)
{
    uint64_t number;

    for (number = 1; number < 21; number++)
        printf("%2d  %s\n", (int)number, vanc_refusal_text(number));
    printf("%s, %s, %s\n", vanc_refusal_text(0), vanc_refusal_text(21), vanc_refusal_text(UINT64_MAX));
    return 0;
}
C
cc_for -std=c99 -Wall -Wextra -pedantic -Werror -I "$top/include" "$work/words.c" -o "$work/words"
this="the header"
said=$(run "$work/words")
[ "$said" = "${table}done, no number of a refusal, no number of a refusal" ] || fail "its words are '$said'"
done_tests=$((done_tests + 1))

# ---- there and back

for packing in 1 2; do
  packs=10
  [ $packing = 1 ] || packs=1
  read="read packing $packing packets 3 numbers 40"
  laid=laid_$packing.area
  fresh "$samples/cue.sheet" "$samples/frame.area" "$made/$laid"
  gives frame.area "$made/$laid" "laid packs $packs bytes 30" lay $packing cue.sheet frame.area
  gives $laid "$made/$laid" "laid packs $packs bytes 30" lay $packing cue.sheet $laid
  gives back.sheet cue.sheet "$read" read 1 $laid back.sheet
  gives cue.sheet "$samples/cue.sheet" "$read" read 1 $laid cue.sheet
  gives back.sheet cue.sheet "$read" read 1080/60i $laid back.sheet
done

# A packet of the other FI is passed over.
fresh "$samples/film.sheet" "$made/film.anc"
gives new.anc film.anc "written packets 2 bytes 59" mxf-write 0 film.sheet new.anc
for system in 3 003 720/60p; do
  gives back.sheet "$made/film_0.sheet" "read packets 2 numbers 25" mxf-read $system 0 film.anc back.sheet
done
expect 0 "read packets 2 numbers 25" "" mxf-read 3 1 film.anc other.sheet
expect 0 "written packets 0 bytes 22" "" mxf-write 0 other.sheet none.anc
keep
gives film.anc film.anc "written packets 2 bytes 59" mxf-write 1 other.sheet film.anc
expect 0 "read packets 0 numbers 4" "" mxf-read 1 0 none.anc none.sheet
expect 0 "system 1 packets 0 bytes 0 packs 0" "" list none.sheet
cp "$samples/frame.area" .
expect 0 "laid packs 0 bytes 0" "" lay 2 none.sheet frame.area
keep
gives back.sheet none.sheet "read packing 0 packets 0 numbers 4" read 1 frame.area back.sheet

# In ten bits: sound packets come back as in eight, damaged ones as they were.
fresh "$samples/film.sheet" "$made/"{found.sheet,found.anc,found_film.anc}
for name in film found; do
  element=${name/film/found_film}.anc
  gives new.anc $element "written packets 2 bytes 66" mxf-write 0 $name.sheet new.anc --ten
  for system in 3 720/60p; do
    gives back.sheet "$made/${name}_0.sheet" "read packets 2 numbers 25" mxf-read $system 0 $element back.sheet --ten
  done
  expect 0 "read packets 2 numbers 25" "" mxf-read 3 1 $element other.sheet --ten
  expect 0 "written packets 0 bytes 22" "" mxf-write 0 other.sheet none.anc --ten
  keep
  gives $element $element "written packets 2 bytes 66" mxf-write 1 other.sheet $element --ten
  for y in 1 2 3; do
    expect 0 "read packets 0 numbers 4" "" mxf-read $y 1 none.anc none.sheet --ten
    expect 0 "system $y packets 0 bytes 0 packs 0" "" list none.sheet
  done
  # An element without packets is of either coding.
  keep
  gives new.anc none.anc "written packets 0 bytes 22" mxf-write 1 none.sheet new.anc
  gives new.anc none.anc "written packets 0 bytes 22" mxf-write 1 none.sheet new.anc --ten
  gives back.sheet none.sheet "read packets 0 numbers 4" mxf-read 3 0 none.anc back.sheet
done

# The command by another name, without an environment, and from another folder.
fresh_jobs
ln -s "$program" "$work/other name"
renamed() { "${starter[@]}" "$work/other name" "$@"; }
bare() { env -i "${starter[@]}" "$program" "$@"; }
elsewhere() (cd folder && vanc "$@")
for start in renamed bare; do
  works lay frame.area
  wrong "PACKING: 'x' is no number" lay x cue.sheet frame.area
done
start=elsewhere
works read new.sheet folder/new.sheet ../laid_1.area
works lay ../frame.area frame.area ../cue.sheet
start=vanc

# ---- arguments

nines=999999999999999999
mkfifo silent
keep
for none in "" x 1x x1 -1 +1 -0 " 1" "1 " $'1\t' 1/ 1: / : 0x1 0X1 1h 1.0 1,0 1e0 ١ '%d' "'" 1000000000000000000 "1$nines" 18446744073709551615 \
  18446744073709551617 "$(printf '%04097d' 1)" "$(printf '%05000d' 1)" \
  1080/60I 1080/60 1080/60ix "1080/60i " " 1080/60i" 01080/60i 1080/50 1080/50I 1080/60p 720/60 720/60P 720/60i 720/60pp 720p 1080-60i; do
  quote "$none"
  wrong "PACKING: $quoted is no number" lay "$none" cue.sheet frame.area
  wrong "SYSTEM: $quoted $neither" read "$none" laid_1.area back.sheet
  for ten in "" --ten; do
    wrong "SYSTEM: $quoted $neither" mxf-read "$none" 0 film.anc back.sheet $ten
    wrong "FI: $quoted is neither 0 nor 1" mxf-write "$none" film.sheet new.anc $ten
    wrong "FI: $quoted is neither 0 nor 1" mxf-read 3 "$none" film.anc back.sheet $ten
  done
done
for system in 1080/60i 1080/50i 720/60p; do
  wrong "PACKING: '$system' is no number" lay $system cue.sheet frame.area
  wrong "FI: '$system' is neither 0 nor 1" mxf-write $system film.sheet new.anc
  wrong "FI: '$system' is neither 0 nor 1" mxf-write $system film.sheet new.anc --ten
done
for number in 0 00 3 256 257 1080 65537 4294967297 $nines; do
  refused 1 0 PACKING lay $number cue.sheet frame.area
done
for number in 0 4 256 257 1080 65537 4294967297 $nines; do
  refused 3 0 SYSTEM read $number laid_1.area back.sheet
  refused 3 0 SYSTEM mxf-read $number 0 film.anc back.sheet
  refused 3 0 SYSTEM mxf-read $number 0 found.anc back.sheet --ten
done
for number in 2 3 10 11 256 257 65536 65537 4294967296 $nines; do
  for ten in "" --ten; do
    wrong "FI: '$number' is neither 0 nor 1" mxf-write $number film.sheet new.anc $ten
    wrong "FI: '$number' is neither 0 nor 1" mxf-read 3 $number film.anc back.sheet $ten
  done
done
for one in 1 01 "$(printf '%018d' 1)" "$(printf '%04096d' 1)"; do
  gives frame.area laid_1.area "laid packs 10 bytes 30" lay $one cue.sheet frame.area
  gives cue.sheet "$samples/cue.sheet" "read packing 1 packets 3 numbers 40" read $one laid_1.area cue.sheet
  refused 18 3 "film.sheet: packet 3 (no line)" mxf-write $one film.sheet new.anc
  refused 18 3 "found.sheet: packet 3 (no line)" mxf-write $one found.sheet new.anc --ten
done
for zero in 0 00 "$(printf '%018d' 0)"; do
  gives new.anc film.anc "written packets 2 bytes 59" mxf-write $zero film.sheet new.anc
  gives new.anc found.anc "written packets 2 bytes 66" mxf-write $zero found.sheet new.anc --ten
done
for two in 2 02 1080/50i; do
  refused 4 0 laid_1.area read $two laid_1.area back.sheet
done

for name in "${commands[@]}"; do
  words=(1 0 film.anc frame.area more more)
  job $name frame.area
  for count in 0 1 2 3 4 5 6; do
    [ $count = $((${#job[@]} - 1)) ] || wrong "usage: ${usage[$name]}" $name "${words[@]:0:count}"
  done
  wrong "usage: ${usage[$name]}" $name --help more
done
wrong "usage: ${usage[list]}" list cue.sheet film.sheet
wrong "usage: ${usage[list]}" list cue.sheet ""
wrong "usage: ${usage[list]}" list --help cue.sheet
wrong "PACKING: '--help' is no number" lay --help cue.sheet frame.area

# --ten stands behind the other arguments, once, and only where it is taken. Fewer of them are not made up by it: no file gets its name.
for name in mxf-write mxf-read; do
  job $name new.file
  how="usage: ${usage[$name]}"
  words=("${job[@]:1}")
  count=${#words[@]}
  for ((at = 0; at < count; at++)); do
    wrong "$how" $name "${words[@]:0:at}" --ten
    wrong "$how" $name "${words[@]:0:at}" --ten "${words[@]:at}"
    wrong "$how" $name "${words[@]:0:at}" --ten "${words[@]:at}" --ten
  done
  wrong "$how" $name "${words[@]}" --ten --ten
  wrong "$how" $name "${words[@]:0:count - 1}" --ten --ten
  for more in more "" --help -- --ten; do
    wrong "$how" $name "${words[@]}" --ten "$more"
    wrong "$how" $name "${words[@]}" "$more" --ten
  done
  for more in "" ten -ten --te --tens --TEN --Ten --ten= --ten=1 " --ten" "--ten " --ten/ ./--ten --10 --ten-bit --help -- - "$(printf '%04096d' 1)" \
    "--ten$(printf '%05000d' 1)"; do
    wrong "$how" $name "${words[@]}" "$more"
  done
  wrong "$how" $name --ten --help
  wrong "$how" $name --help --ten
  wrong "usage: vanc help [NAME]" help $name --ten
done
wrong "FI: '--ten' is neither 0 nor 1" mxf-write --ten film.sheet new.file
wrong "SYSTEM: '--ten' $neither" mxf-read --ten 0 film.anc new.file
wrong "FI: '--ten' is neither 0 nor 1" mxf-read 3 --ten film.anc new.file
wrong "--ten: $absent" mxf-write 0 --ten new.file
wrong "--ten: $absent" mxf-read 3 0 --ten new.file
wrong "usage: ${usage[list]}" list cue.sheet --ten
wrong "usage: ${usage[lay]}" lay 1 cue.sheet frame.area --ten
wrong "usage: ${usage[read]}" read 1 laid_1.area new.file --ten
wrong "usage: vanc --version" --version --ten
wrong "usage: vanc --help" --help --ten
for writer in mxf-write-ten mxf-read-ten; do
  works $writer ./--ten --ten
  job $writer x
  cp "$input" ./--ten
  keep
  works $writer new.file "" ./--ten
  rm ./--ten
  keep
done

# Each wrong argument is said, in their order, and no file is looked at.
wide 4097 x
wrong "PACKING: 'x' is no number"$'\n'"SHEET: an empty name"$'\n'"AREA: $large" lay x "" "$wide"
wrong "SYSTEM: '' $neither"$'\n'"AREA: $large"$'\n'"SHEET: an empty name" read "" "$wide" ""
wrong "FI: '2' is neither 0 nor 1"$'\n'"SHEET: an empty name"$'\n'"ELEMENT: an empty name" mxf-write 2 "" ""
wrong "SYSTEM: 'x' $neither"$'\n'"FI: 'y' is neither 0 nor 1"$'\n'"ELEMENT: an empty name"$'\n'"SHEET: $large" mxf-read x y "" "$wide"
wrong "FI: '2' is neither 0 nor 1"$'\n'"SHEET: $large"$'\n'"ELEMENT: an empty name" mxf-write 2 "$wide" "" --ten
wrong "SYSTEM: 'x' $neither"$'\n'"FI: 'y' is neither 0 nor 1"$'\n'"ELEMENT: an empty name"$'\n'"SHEET: $large" mxf-read x y "" "$wide" --ten
wrong "PACKING: 'x' is no number"$'\n'"AREA: an empty name" lay x nothing.sheet ""
wrong "AREA: an empty name" lay 3 cue.sheet ""
wrong "SHEET: an empty name" read 4 nothing.area ""
start=timely
wrong "PACKING: 'x' is no number" lay x silent frame.area
wrong "SYSTEM: 'x' $neither" read x silent folder
wrong "SYSTEM: 'x' $neither"$'\n'"FI: '2' is neither 0 nor 1" mxf-read x 2 silent folder
wrong "FI: '2' is neither 0 nor 1" mxf-write 2 silent folder --ten
wrong "SYSTEM: 'x' $neither"$'\n'"FI: '2' is neither 0 nor 1" mxf-read x 2 silent folder --ten
start=vanc

# ---- names

fresh_jobs
odd=$' a  b %s%n\'\\*ä'
wrong "nothing.sheet: $absent" list nothing.sheet
wrong "folder: Is a directory" list folder
wrong "SHEET: an empty name" list ""
wrong "-: $absent" list -
wrong "$odd: $absent" list "$odd"
# A name is UTF-8 text, here and below; other words may have any bytes.
raw=$'a\xffb' no_text="Invalid or incomplete multibyte or wide character"
wrong "$raw: $no_text" list "$raw"
wrong "PACKING: '$raw' is no number" lay "$raw" silent folder
wrong "'$raw' is no command; vanc --help lists them" "$raw"
wrong "--help: $absent" lay 1 --help frame.area
wrong "nothing.area: $absent" lay 1 cue.sheet nothing.area
wrong "nowhere/frame.area: $absent" lay 1 cue.sheet nowhere/frame.area
wrong "nothing.sheet: $absent" lay 1 nothing.sheet nothing.area
wrong "cue.sheet/x: Not a directory" lay 1 film.sheet cue.sheet/x
for writer in "${writers[@]}"; do
  for words in {nothing.file,nothing.file/,nowhere/file}": $absent" "folder: Is a directory" cue.sheet/{x,}": Not a directory"; do
    stops "$words" $writer frame.area "${words%%: *}"
  done
  stops "${called[0]}: an empty name" $writer frame.area ""
  stops "${called[1]}: an empty name" $writer ""
  stops "${called[0]}: an empty name"$'\n'"${called[1]}: an empty name" $writer "" ""
  stops "$raw: $no_text" $writer frame.area "$raw"
  stops "$raw: $no_text" $writer "$raw"
  [ $writer != lay ] || continue
  for name in new.file folder/new.file "folder/$odd" -new --help; do
    works $writer "$name"
    works $writer "./$name" "$name"
    works $writer "folder/../$name" "$name"
    works $writer "$PWD/$name" "$name"
  done
  for words in {nowhere/file,new.file/}": not written: $absent" frame.area/{x,}": Not a directory"; do
    stops "$words" $writer "${words%%: *}"
  done
  stops "nothing.file: $absent" $writer nowhere/file nothing.file
  stops "nothing.file: $absent" $writer nothing.file nothing.file
done

# A name has 4,096 bytes at most, of which the system takes 4,095, and a part of it 255. The output's folder has 4,083 at most, with its slash.
printf -v part '%0255d' 1
for file in "${inputs[@]}"; do
  cp $file "${part:${#file}}$file"
done
for file in "$part" twelve.areas eleven.area tens.areas; do
  cp frame.area "$file"
done
wide 4093 tens.areas
long_links=true
# Not every file system has links as long as that.
if ln -s "$wide" near 2>/dev/null; then
  wide 4094 tens.areas
  ln -s "$wide" far
  wide 4088 tens.areas
  ln -s ".$wide" folder/joined
else
  long_links=false
fi
keep
expect 0 "$listing" "" list "${part:9}cue.sheet"
wide 4095 cue.sheet
expect 0 "$listing" "" list "$wide"
for name in "1$part" "folder/1$part"; do
  wrong "$name: $large" list "$name"
done
for size in 4096 4097; do
  wide $size cue.sheet
  wrong "SHEET: $large" list "$wide"
done
for writer in "${writers[@]}"; do
  job $writer x
  from=$input
  works $writer "$part" "" "${part:${#from}}$from"
  wide 4095 "$from"
  works $writer frame.area "" "$wide"
  for file in "4095 twelve.areas" "4094 eleven.area" "4093 tens.areas" "4082 tens.areas"; do
    wide $file
    works $writer "$wide" "${file#* }"
  done
  ! $long_links || works $writer near tens.areas
  for name in "1$part" "folder/1$part"; do
    stops "$name: $large" $writer frame.area "$name"
    stops "$name: $large" $writer "$name"
  done
  for size in 4096 4097 5000; do
    wide $size x
    stops "${called[0]}: $large" $writer frame.area "$wide"
    stops "${called[1]}: $large" $writer "$wide"
  done
  for file in "4095 eleven.area" "4094 tens.areas" "4095 tens.areas"; do
    wide $file
    or="$wide: not written: $large" stops "$wide: $large" $writer "$wide"
  done
  for name in far folder/joined; do
    $long_links || continue
    or="$name: not written: $large" stops "$name: $large" $writer $name
  done
  [ $writer != lay ] || continue
  works $writer "2${part:1}"
  for file in "4095 twelve.fresh" "4094 eleven.file" "4093 tens.fresh"; do
    wide $file
    works $writer "$wide" "${file#* }"
  done
  wide 4094 tens.fresh
  or="$wide: not written: $large" stops "$wide: $large" $writer "$wide"
done

# ---- outputs that are no files: said before any input is opened, such as a FIFO to which nobody writes

fresh_jobs
declare -A kinds=([folder]="a folder" [fifo]="a FIFO" [socket]="a socket")
mkfifo fifo silent
sees socket socket
if $root && mknod device c 1 3 2>/dev/null; then
  mknod block b 7 250
  kinds+=([device]="a device" [block]="a device")
fi
for kind in "${!kinds[@]}"; do
  ln -s "$kind" "to_$kind"
  ln -s "$PWD/to_$kind" "folder/to_to_$kind"
  kinds+=(["to_$kind"]=${kinds[$kind]} ["folder/to_to_$kind"]=${kinds[$kind]})
done
kinds+=([.]="a folder" [folder/]="a folder" [/]="a folder" [folder/..]="a folder")
$root || kinds+=([/dev/null]="a device" [/dev/zero]="a device")
keep

# The command, with a pipe for standard output.
piped() {
  vanc "$@" | cat
  return "${PIPESTATUS[0]}"
}
for writer in "${writers[@]}"; do
  start=timely
  for kind in "${!kinds[@]}"; do
    stops "$kind: ${kinds[$kind]}; $regular" $writer $kind silent
  done
  stops "frame.area/x: Not a directory" $writer frame.area/x silent
  start=vanc
  stops "folder: a folder; $regular" $writer folder nothing.file
  stops "folder: a folder; $regular" $writer folder folder
  stops "socket: No such device or address" $writer frame.area socket
  start=piped stops "/dev/stdout: a FIFO; $regular" $writer /dev/stdout
done

# ---- the same file for input and output

fresh_jobs
for file in "${inputs[@]}"; do
  ln $file "hard_$file"
  ln -s $file "soft_$file"
  ln -s "../soft_$file" "folder/soft_$file"
done
keep
for writer in "${writers[@]}"; do
  job $writer x
  from=$input
  for file in $from ./$from folder/../$from "$PWD/$from" hard_$from soft_$from folder/soft_$from; do
    stops "$file: the same file as $from" $writer "$file"
    stops "$from: the same file as $file" $writer $from "$file"
  done
  stops "folder/soft_$from: the same file as soft_$from" $writer folder/soft_$from soft_$from
  stops "$from: the same file as /dev/stdin" $writer $from /dev/stdin <$from
done
stops "frame.area: the same file as ./frame.area" lay frame.area ./frame.area
wrong "cue.sheet: the same file as cue.sheet" lay 3 cue.sheet cue.sheet
wrong "laid_1.area: the same file as laid_1.area" read 4 laid_1.area laid_1.area

# ---- links as outputs: the file that they name in the end is replaced or made, in its own folder, and they stay

fresh_jobs
mkdir folder/deep links
ln -s folder/target link
ln -s ../folder/target links/relative
ln -s "$PWD/folder/target" links/absolute
ln -s target folder/beside
ln -s ../links/relative folder/chain
ln -s "$PWD/folder/chain" links/chain
ln -s links/chain chain
ln -s .././folder/deep/../../links/..//folder/target links/dots
ln -s folder way
ln -s ../way/target links/way
ln -s folder/target 1
for n in {2..41}; do
  ln -s $((n - 1)) $n
done
ln -s self self
ln -s second first
ln -s first second
ln -s nowhere/target lost
mkfifo silent
levels="Too many levels of symbolic links"
for old in true false; do
  if $old; then
    cp frame.area folder/target
    chmod 640 folder/target
    mode=640
  else
    rm folder/target
    mode=644
  fi
  keep
  for writer in "${writers[@]}"; do
    for name in 41 self first; do
      start=timely stops "$name: $levels" $writer $name silent
      stops "$name: $levels" $writer frame.area $name
    done
    for name in link links/relative links/absolute folder/beside folder/chain links/chain chain links/dots way/target links/way 39 40; do
      if [ $writer$old = layfalse ]; then
        stops "$name: $absent" $writer $name
      else
        works $writer $name folder/target
      fi
    done
    if [ $writer = lay ]; then
      stops "lost: $absent" $writer lost
      $old || continue
    else
      stops "lost: not written: $absent" $writer lost
    fi
    # The file beside is in the folder of the file, not in that of the link: it stays where it can be neither renamed nor removed.
    for name in link chain links/absolute way/target; do
      job $writer $name
      fault="rename 1,unlink 1" expect 2 "" "$name: not written: Invalid cross-device link" "${job[@]}"
      sees beside folder "$right" $mode "$(stat -c %s "$right")"
    done
  done
done

# A link by which a file is opened that has no name any more: nothing is at the path that the link has, and an area is read where it is replaced.
fresh_jobs
exec 3<frame.area
rm frame.area
keep
stops "/proc/self/fd/3: $absent" lay /proc/self/fd/3
exec 3<&-

# A file with two names: the other one still has the old bytes.
for writer in "${writers[@]}"; do
  fresh_jobs
  ln frame.area folder/other
  keep
  works $writer frame.area
done

# ---- modes and owners

# A file that is replaced keeps all twelve bits, its owner and its group. An area that its own user cannot read cannot be laid into.
fresh_jobs
cp frame.area folder
ln -s folder/frame.area link
owners=("$(id -u):$(id -g)")
! $root || owners+=(65534:65534 0:65534 65534:0 12345:54321)
for owner in "${owners[@]}"; do
  modes=(600 640 4755 6755)
  [ "$owner" != "${owners[0]}" ] || modes+=(644 755 444 2755 1644 7777 664 400 000)
  for mode in "${modes[@]}"; do
    chown "$owner" frame.area folder/frame.area
    chmod $mode frame.area folder/frame.area
    keep
    for writer in "${writers[@]}"; do
      [ $mode$writer != 000lay ] || $root || continue
      works $writer frame.area
      [ "$mode" != 4755 ] || works $writer link folder/frame.area
    done
  done
done

# A new file has the mode that new files get. The umask is of no effect on a file that is replaced.
fresh_jobs
ln -s folder/new.file link
keep
mask=$(umask)
for writer in "${writers[@]:1}"; do
  for words in "022 644" "002 664" "027 640" "077 600" "000 666" "777 0" "137 640"; do
    for name in new.file link frame.area; do
      job $writer $name
      umask "${words% *}"
      expect 0 "$line" "" "${job[@]}"
      umask "$mask"
      case $name in
      new.file) sees became new.file "$right" "${words#* }" ;;
      link) sees became folder/new.file "$right" "${words#* }" ;;
      *) sees became frame.area "$right" ;;
      esac
    done
  done
done

# While it is written, a file that is to replace another can be read by its owner alone, also where the other can be read by all.
chmod 666 frame.area
keep
for writer in "${writers[@]}"; do
  job $writer frame.area
  fault="write 1,unlink 1" expect 2 "" "frame.area: not written: $space" "${job[@]}"
  sees beside . "$right" 600 0
  fault="short,write 20,unlink 1" expect 2 "" "frame.area: not written: $space" "${job[@]}"
  sees beside . "$right" 600 19
done

# ---- files and folders without permission, for a user who is not root: where root runs the tests, user 65534

if $root; then
  need setpriv util-linux
  stranger() { timeout 10 setpriv --reuid=65534 --regid=65534 --clear-groups "${starter[@]}" "$program" "$@"; }
  own() { chown -h 65534:65534 "$@"; }
  stranger --version >"$work/stdout" 2>&1 || fail "user 65534 cannot run $program; another TMPDIR is needed"
else
  stranger() { timely "$@"; }
  own() { :; }
fi

fresh_jobs
mkdir closed shut
for file in "${inputs[@]}" frame.area; do
  cp $file "no_$file"
  cp $file closed
  cp $file shut
done
ln -s shut/frame.area to_shut
ln -s closed/frame.area to_closed
ln -s closed/new.file to_new
mkfifo silent
own . ./* closed/* shut/*
chmod 000 no_* shut
chmod 555 closed
keep
start=stranger
wrong "no_cue.sheet: $denied" list no_cue.sheet
wrong "shut/cue.sheet: $denied" list shut/cue.sheet
for writer in "${writers[@]}"; do
  job $writer x
  from=$input
  stops "no_$from: $denied" $writer frame.area no_$from
  stops "shut/$from: $denied" $writer frame.area shut/$from
  for name in shut/frame.area shut/new.file to_shut; do
    stops "$name: $denied" $writer $name silent
  done
  for name in closed/frame.area to_closed; do
    stops "$name: not written: $denied" $writer $name
  done
  if [ $writer = lay ]; then
    stops "no_frame.area: $denied" $writer no_frame.area
    continue
  fi
  works $writer no_frame.area
  for name in closed/new.file to_new; do
    stops "$name: not written: $denied" $writer $name
  done
done
chmod 755 closed shut

# Where the owner cannot be kept, the nine bits of permission are, and the group where it is one of the user's.
if $root; then
  stranger() { setpriv --reuid=65534 --regid=65534 --groups=12345 "${starter[@]}" "$program" "$@"; }
  fresh_jobs
  own .
  for file in "0:0 644" "0:0 640" "0:0 4755" "0:0 6755" "0:0 1777" "0:65534 640" "0:65534 6755" "65534:0 644" "65534:0 604" "0:12345 6750" \
    "65534:12345 6755"; do
    chown "${file% *}" frame.area
    chmod "${file#* }" frame.area
    keep
    mode=${file: -3} group=65534
    [[ $file != *:12345* ]] || group=12345
    [[ $file != 65534:12345* ]] || mode=6755
    for writer in "${writers[@]}"; do
      [ "$writer $file" != "lay 0:0 640" ] || continue
      job $writer frame.area
      expect 0 "$line" "" "${job[@]}"
      sees became frame.area "$right" $mode 65534:$group
    done
  done
  chown 0:0 .
fi
start=vanc

# ---- sheets at their limits

# lists SHEET STATUS STDOUT [WORDS [MORE]]: what is printed of a sheet by its name, on standard input and through a pipe; and by the lister, which has
# neither a status nor words. WORDS and MORE are said of the sheet.
lists() {
  local said=${4:+NAME: $4}${5:+$'\n'NAME: $5}
  expect "$2" "$3" "${said//NAME/$1}" list "$1"
  expect "$2" "$3" "${said//NAME/standard input}" list <"$1"
  expect "$2" "$3" "${said//NAME/standard input}" list < <(cat "$1")
  expect "$2" "$3" "${said//NAME//dev/stdin}" list /dev/stdin < <(cat "$1")
  start=lister expect 0 "$3" "" <"$1"
  start=lister expect 0 "$3" "" < <(cat "$1")
}

for y in 1 2 3; do
  fresh "$made/"{less,full,over}"_$y.sheet" "$made/noise_$y.area" "$made/"{less,full}"_$y.anc"
  for size in 0 1 65535 65537 65538 65600 131072; do
    cp "full_$y.sheet" $size.sheet
    length $size.sheet $size
  done
  cat "full_$y.sheet" "full_$y.sheet" >twice.sheet
  keep
  for size in less full; do
    sheet=${size}_$y.sheet
    lists $sheet 0 "$(cat "$made/${size}_$y.text")"
    refused 12 0 $sheet lay 1 $sheet noise_$y.area
    refused 12 0 $sheet lay 2 $sheet noise_$y.area
    bytes=$longest
    [ $size = full ] || bytes=$((longest - 1))
    gives film.anc ${size}_$y.anc "written packets $most bytes $bytes" mxf-write 0 $sheet film.anc
  done
  for sheet in {1,65535,65537,65538,65600,131072,twice,over_$y}.sheet; do
    lists $sheet 1 "refused 2 at 0 0" "${refusals[2]}" "$even"
    second="$sheet: $even"
    refused 2 0 $sheet lay 1 $sheet noise_$y.area
    refused 2 0 $sheet mxf-write 0 $sheet full_$y.anc
    refused 2 0 $sheet mxf-write 0 $sheet full_$y.anc --ten
    second=
    refused 1 0 PACKING lay 0 $sheet noise_$y.area
  done
  lists 0.sheet 1 "refused 2 at 0 0" "${refusals[2]}"
  refused 2 0 0.sheet lay 2 0.sheet noise_$y.area
  refused 2 0 0.sheet mxf-write 0 0.sheet full_$y.anc
  refused 2 0 0.sheet mxf-write 0 0.sheet full_$y.anc --ten
done

# ---- areas at their limits

for y in 1 2 3; do
  for packing in 1 2; do
    fill=fill_${packing}_$y spill=spill_${packing}_$y.sheet
    fresh "$made/$fill.sheet" "$made/$spill" "$made/noise_$y.area" "$made/$fill.area"
    gives noise_$y.area $fill.area "$(cat "$made/$fill.laid")" lay $packing $fill.sheet noise_$y.area
    gives back.sheet $fill.sheet "$(cat "$made/$fill.read")" read $y $fill.area back.sheet
    gives noise_$y.area $fill.sheet "$(cat "$made/$fill.read")" read $y $fill.area noise_$y.area
    refused 12 0 $spill lay $packing $spill noise_$y.area
    for size in 0 9599 9600 9601 9602 9680 11519 11520 11521 11522 11600 20000 65536; do
      [ $size != "$(stat -c %s noise_$y.area)" ] || continue
      cp $fill.area frame.area
      length frame.area $size
      keep
      refused 4 0 frame.area lay $packing $fill.sheet frame.area
      refused 4 0 frame.area read $y frame.area back.sheet
      refused 4 0 frame.area read $y frame.area $fill.sheet
    done
  done
done

# ---- elements at their limits

for y in 1 2 3; do
  fresh "$made/full_$y.sheet" "$made/less_$y.sheet" "$made/"{full,less,over,limit,long,long_less,long_over}"_$y.anc"
  for size in 262143 262145 524288; do
    cp long_$y.anc $size.anc
    length $size.anc $size
  done
  keep
  for element in {full,long,long_less}_$y.anc; do
    gives back.sheet full_$y.sheet "read packets $most numbers 32768" mxf-read $y 0 $element back.sheet
  done
  gives full_$y.sheet less_$y.sheet "read packets $most numbers 32767" mxf-read $y 0 less_$y.anc full_$y.sheet
  for sheet in back.sheet full_$y.sheet; do
    second="$sheet: $even" refused 17 0 over_$y.anc mxf-read $y 0 over_$y.anc $sheet
    refused 5 $most limit_$y.anc mxf-read $y 0 limit_$y.anc $sheet
    for element in long_over_$y.anc 262145.anc 524288.anc; do
      wrong "$element: longer than the 262144 bytes that are read" mxf-read $y 0 $element $sheet
    done
    refused 19 17 "262143.anc: byte 17" mxf-read $y 0 262143.anc $sheet
    refused 19 0 "/dev/null: byte 0" mxf-read $y 0 /dev/null $sheet
  done
done
fresh "$made/full_3.anc" "$made/other_3.sheet"
gives back.sheet other_3.sheet "read packets $most numbers 32768" mxf-read 3 1 full_3.anc back.sheet
gives back.anc full_3.anc "written packets $most bytes $longest" mxf-write 1 other_3.sheet back.anc
expect 0 "written packets 0 bytes 22" "" mxf-write 0 other_3.sheet back.anc

# As many packets as the limit fit system 2 in long packs: with three user bytes, as in fill_2_2, or fewer and fill behind them.
for user in 0 1 2; do
  tail=tail_$user
  fresh "$made/$tail".{sheet,area} "$made/noise_2.area"
  gives noise_2.area $tail.area "laid packs 144 bytes $((7 * most + user))" lay 2 $tail.sheet noise_2.area
  gives back.sheet $tail.sheet "read packing 2 packets $most numbers $((4 + 9 * most + user))" read 2 $tail.area back.sheet
  refused 12 0 $tail.sheet lay 1 $tail.sheet noise_2.area
done

# Inputs without an end are read as far as their limit, and so is a file of 4 GiB.
fresh_jobs
truncate -s 4G "$work/huge"
start=timely
for input in /dev/zero "$work/huge"; do
  second="$input: $even"
  refused 2 0 "$input" list "$input"
  refused 2 0 "$input" lay 1 "$input" frame.area
  refused 2 0 "$input" mxf-write 0 "$input" frame.area
  second=
  refused 4 0 "$input" read 1 "$input" frame.area
  wrong "$input: longer than the 262144 bytes that are read" mxf-read 1 0 "$input" frame.area
  wrong "$input: longer than the 262144 bytes that are read" mxf-read 1 0 "$input" frame.area --ten
  second="$input: $even" refused 2 0 "$input" mxf-write 0 "$input" frame.area --ten
done
refused 4 0 "$work/huge" lay 1 cue.sheet "$work/huge"
start=vanc
[ "$(stat -c '%s %b' "$work/huge")" = "4294967296 0" ] || fail "the file has changed"
rm "$work/huge"

# Inputs may be pipes.
mkfifo fifo
keep
for writer in "${writers[@]}"; do
  job $writer x
  from=$input
  works $writer frame.area "" /dev/stdin <"$from"
  works $writer frame.area "" /dev/stdin < <(cat "$from")
  works $writer frame.area "" <(cat "$from")
  cat "$from" >fifo &
  works $writer frame.area "" fifo
done

# ---- 900 cues of a few bytes, as a lighting desk sends them

# Long packs take them with up to two user bytes in 1080/50i, with one in the others, and packs of five do not; an element takes them all.
for words in "1 1 117" "2 1 none" "2 2 130" "3 2 none" "1 3 117" "2 3 none"; do
  read -r dc y packs <<<"$words"
  cues=cues_${dc}_$y string=$((900 * (dc + 7))) numbers=$((4 + 900 * (dc + 9)))
  fresh "$made/$cues".{sheet,anc} "$made/noise_$y.area"
  lists $cues.sheet 0 "$(cat "$made/$cues.text")"
  gives new.anc $cues.anc "written packets 900 bytes $((22 + 900 * (dc + 17)))" mxf-write 0 $cues.sheet new.anc
  gives back.sheet $cues.sheet "read packets 900 numbers $numbers" mxf-read $y 0 $cues.anc back.sheet
  refused 12 0 $cues.sheet lay 1 $cues.sheet noise_$y.area
  if [ $packs = none ]; then
    refused 12 0 $cues.sheet lay 2 $cues.sheet noise_$y.area
    continue
  fi
  gives noise_$y.area "$made/$cues.area" "laid packs $packs bytes $string" lay 2 $cues.sheet noise_$y.area
  cp "$made/$cues.area" .
  keep
  gives back.sheet $cues.sheet "read packing 2 packets 900 numbers $numbers" read $y $cues.area back.sheet
  # What was read goes on to an element, and what comes from that to a frame.
  expect 0 "read packing 2 packets 900 numbers $numbers" "" read $y $cues.area back.sheet
  expect 0 "written packets 900 bytes $((22 + 900 * (dc + 17)))" "" mxf-write 0 back.sheet new.anc
  expect 0 "read packets 900 numbers $numbers" "" mxf-read $y 0 new.anc again.sheet
  expect 0 "laid packs $packs bytes $string" "" lay 2 again.sheet noise_$y.area
  cmp $cues.sheet again.sheet && cmp $cues.area noise_$y.area || fail "other cues come back"
done

# ---- refusals: each number, with its words and the place that is meant

# of_sheet NUMBER PLACE NAME [WHERE [WORD]]: the sheet NUMBER_NAME is refused by each command that reads sheets, and comes before an output's folder
# that is not there; where it is laid, after 1, and up to 3 before an area of the wrong length.
of_sheet() {
  local number=$1 place=$2 sheet=$1_$3.sheet what=$1_$3.sheet${4:+: $4} area=noise_1.area at_word=${5-0}
  [[ $3 != *_2 ]] || area=noise_2.area
  cp "$made/$sheet" .
  keep
  lists $sheet 1 "refused $number at $place $at_word" "${4:+$4: }${instead:-${refusals[number]}}"
  refused $number $place "$what" lay 1 $sheet $area
  refused $number $place "$what" lay 2 $sheet $area
  instead= at_word=0 refused 1 0 PACKING lay 3 $sheet $area
  if [ "$number" -le 3 ]; then
    refused $number $place "$what" lay 1 $sheet cue.sheet
  else
    instead= at_word=0 refused 4 0 cue.sheet lay 1 $sheet cue.sheet
  fi
  wrong "nothing.area: $absent" lay 1 $sheet nothing.area
  for output in new.anc noise_1.area nowhere/new.anc; do
    refused $number $place "$what" mxf-write 0 $sheet $output
    # As found it has no 8 or 10: then its packet 2 has no line, or it has no location.
    case $number$3 in
    8line | 10line) instead= at_word=0 refused 18 2 "$sheet: packet 2 (no line)" mxf-write 0 $sheet $output --ten ;;
    8alone | 10alone) instead= at_word=0 refused 11 0 $sheet mxf-write 0 $sheet $output --ten ;;
    *) refused $number $place "$what" mxf-write 0 $sheet $output --ten ;;
    esac
  done
  rm $sheet
}

fresh "$samples/"{cue.sheet,film.sheet} "$made/noise_1.area" "$made/noise_2.area"
for name in short long first three; do
  of_sheet 2 0 $name
done
for system in 0 4 65535; do
  of_sheet 3 0 system_$system
done
for y in 1 2 3; do
  of_sheet 5 0 many_$y
done
of_sheet 6 2 line_1 "location 2 (line 1126, flags 2)"
of_sheet 6 2 line_2 "location 2 (line 1126, flags 2)"
of_sheet 6 2 line_3 "location 2 (line 751, flags 2)"
of_sheet 6 1 flags "location 1 (line 561, flags 4)"
of_sheet 6 2 zero "location 2 (line 0, flags 4)"
of_sheet 6 0 both "location 0 (line 65535, flags 65535)"
of_sheet 6 2 behind "location 2 (line 1126, flags 0)"
# 20 of a sheet has words of its own, with the line; 569 and 570 are kept free in 1080 alone.
for words in {127,300,1123}_1 584_2 {26,569,570,745}_3; do
  instead="line ${words%_*} is a picture line" of_sheet 20 1 $words "location 1 (line ${words%_*}, flags 3)"
done
for words in {7,8,569,570}_1 7_2 8_3; do
  instead="line ${words%_*} is kept free for switching" of_sheet 20 1 $words "location 1 (line ${words%_*}, flags 3)"
done
for number in 7 10 11; do
  instead="line 21 is a picture line" of_sheet 20 2 before_$number "location 2 (line 21, flags 0)"
done
of_sheet 7 2 few "packet 2 (no line), word 6 (user word 0) is missing" 6
for words in "7 1 (flag) is 000h" "8 4 (SDID) is 001h" "9 8 (CS) is missing" "10 8 (CS) is 1D9h"; do
  read -r number word said <<<"$words"
  of_sheet $number 0 line "packet 0 (line 9), word $word $said" $word
  of_sheet $number 0 alone "packet 0, word $word $said" $word
done
for name in more fewer nothing; do
  of_sheet 11 0 $name
done

fresh_jobs
cp "$made/spill_1_1.sheet" .
cp "$made/full_1.sheet" late.sheet
poke late.sheet 65534 '\000\000'
keep
last=$((most - 1))
lists late.sheet 1 "refused 10 at $last 16" "packet $last (line $((1125 - last % 2))), word 16 (CS) is 000h: ${refusals[10]}"
refused 12 0 spill_1_1.sheet lay 1 spill_1_1.sheet frame.area
for output in new.file frame.area nowhere/new.file; do
  refused 4 0 laid_1.area read 2 laid_1.area $output
  refused 18 3 "film.sheet: packet 3 (no line)" mxf-write 1 film.sheet $output
  refused 18 2 "cue.sheet: packet 2 (no line)" mxf-write 0 cue.sheet $output
  refused 19 0 "film.sheet: byte 0" mxf-read 3 0 film.sheet $output
  refused 3 0 SYSTEM mxf-read 4 0 film.sheet $output
  refused 18 3 "found.sheet: packet 3 (no line)" mxf-write 1 found.sheet $output --ten
  refused 18 2 "cue.sheet: packet 2 (no line)" mxf-write 0 cue.sheet $output --ten
  refused 19 0 "found.sheet: byte 0" mxf-read 3 0 found.sheet $output --ten
  refused 3 0 SYSTEM mxf-read 4 0 found.sheet $output --ten
  refused 3 0 SYSTEM read 4 film.sheet $output
done
for words in "13 0" "14 1" "15 1" "16 1"; do
  for packing in 1 2; do
    area=${words% *}_$packing.area
    where=
    [ "${words% *}" -lt 14 ] || where=": packet ${words#* }"
    cp "$made/$area" .
    keep
    for output in new.file frame.area nowhere/new.file; do
      refused $words "$area$where" read 1 $area $output
    done
  done
done
# 5 comes in system 2 and long packs alone.
for words in 5_{0,1,2}": $most" {14,15,16,20}_late": $last"; do
  area=${words%: *}.area number=${words%_*} place=${words#*: }
  where=": packet $place"
  [ $number != 5 ] || where=
  [ $number != 20 ] || instead="line 7 is kept free for switching"
  cp "$made/$area" .
  keep
  for output in new.file frame.area nowhere/new.file; do
    refused $number $place "$area$where" read 2 $area $output
  done
  instead=
done
for byte in 0 1 15 16; do
  cp film.anc bad.anc
  poke bad.anc $byte '\377'
  keep
  for output in new.file frame.area nowhere/new.file; do
    refused 19 $byte "bad.anc: byte $byte" mxf-read 3 0 bad.anc $output
  done
done
# 20 of a packet that is read has words of its own too. The line is found at every place of packs and blocks, and behind padding.
for path in "$made"/{picture,switching}_*.{area,anc}; do
  file=${path##*/}
  IFS=_ read -r kind line place y _ <<<"${file%.*}"
  instead="line $line is a picture line"
  [ $kind = picture ] || instead="line $line is kept free for switching"
  read=(read $y)
  [[ $file != *.anc ]] || read=(mxf-read $y 0)
  cp "$path" .
  keep
  refused 20 $place "$file: packet $place" "${read[@]}" $file new.file
  rm $file
done
# Lines 7 and 26 in place of 9 and 13: packet 0's at byte 22, packet 1's at 41. 19 comes before 20, wherever it is.
for words in '0 23 \007 7 is kept free for switching' '1 42 \032 26 is a picture line'; do
  read -r packet byte line instead <<<"$words"
  instead="line $instead"
  cp film.anc bad.anc
  poke bad.anc $byte "$line"
  keep
  for output in new.file frame.area nowhere/new.file; do
    for fi in 0 1; do
      refused 20 $packet "bad.anc: packet $packet" mxf-read 3 $fi bad.anc $output
    done
  done
  instead=
  refused 3 0 SYSTEM mxf-read 4 0 bad.anc new.file
  poke bad.anc $((41 - 19 * packet)) '\377'
  keep
  refused 19 $((41 - 19 * packet)) "bad.anc: byte $((41 - 19 * packet))" mxf-read 3 0 bad.anc new.file
done
# 20 comes before 5: the packet over the limit, whose structure is the last of 17 bytes each.
for y in 1 2 3; do
  cp "$made/limit_$y.anc" bad.anc
  poke bad.anc $((22 + 17 * most)) '\001\054'
  keep
  instead="line 300 is a picture line" refused 20 $most "bad.anc: packet $most" mxf-read $y 0 bad.anc new.file
done

# ---- every line of each system, listed

step=1
[ ${#starter[@]} = 0 ] || step=10
this="vanc list"
listed=$(python3 "$top/tests/command_lines.py" $step "${starter[@]}" "$program") || fail "a line is not listed as it should be"
echo "command: $listed runs of vanc list, each with another line or system"
done_tests=$((done_tests + listed))

# ---- the word at fault: each kind of word, wrong or missing, in a packet with a line, without one, and without a location

# Of each sheet (tests/command_files.py, words_at_fault) its name, the number, the word, and what is said of it.
at_fault=(
  "flag_0 7 0 (flag) is 3FFh" "flag_1 7 1 (flag) is 000h" "flag_2 7 2 (flag) is 3FEh" "flag_over 7 0 (flag) is 1000h" "flag_few 7 1 (flag) is 001h"
  "no_flag_1 7 1 (flag) is missing" "no_flag_2 7 2 (flag) is missing" "no_did 7 3 (DID) is missing" "no_sdid 7 4 (SDID) is missing"
  "no_dbn 7 4 (DBN) is missing" "no_dbn_of_did_over 7 4 (DBN) is missing" "no_dc 7 5 (DC) is missing" "no_user_0 7 6 (user word 0) is missing"
  "no_user_of_dc_over 7 6 (user word 0) is missing" "no_cs_of_none 7 6 (CS) is missing" "no_cs_of_dc_over 7 6 (CS) is missing"
  "no_user_1 9 7 (user word 1) is missing" "no_user_3 9 9 (user word 3) is missing" "no_user_17 9 23 (user word 17) is missing"
  "no_user_254 9 260 (user word 254) is missing" "no_cs 9 8 (CS) is missing" "no_cs_of_255 9 261 (CS) is missing"
  "did 8 3 (DID) is 045h" "did_over 8 3 (DID) is FFFFh" "sdid 8 4 (SDID) is 301h" "sdid_over 8 4 (SDID) is FFFh" "sdid_of_7f 8 4 (SDID) is 002h"
  "dbn_of_80 8 4 (DBN) is 3FFh" "dbn_of_ff 8 4 (DBN) is 201h" "dc 8 5 (DC) is 202h" "dc_over 8 5 (DC) is 502h"
  "user_0 8 6 (user word 0) is 3FFh" "user_1 8 7 (user word 1) is 1000h" "user_17 8 23 (user word 17) is 3FFh"
  "user_254 8 260 (user word 254) is 000h" "user_over 8 7 (user word 1) is FFFFh"
  "cs 10 8 (CS) is 2D8h" "cs_of_none 10 6 (CS) is 046h" "cs_of_1 10 7 (CS) is 180h" "cs_of_255 10 261 (CS) is FFFFh"
  "did_400 8 3 (DID) is 445h" "sdid_400 8 4 (SDID) is 401h" "dbn_400 8 4 (DBN) is 405h" "dc_400 8 5 (DC) is 402h"
  "user_400 8 6 (user word 0) is 410h" "last_user_400 8 260 (user word 254) is 4FEh" "cs_400_of_none 10 6 (CS) is 400h" "cs_400 10 8 (CS) is 400h"
  "cs_400_of_255 10 261 (CS) is 400h" "dc_002 8 5 (DC) is 002h" "dc_302 8 5 (DC) is 302h" "ones 8 3 (DID) is 3FFh" "zeros 8 3 (DID) is 000h"
  "cs_ones 10 8 (CS) is 3FFh" "flag_inside 8 6 (user word 0) is 000h"
)
fresh "$made/"word_*.sheet "$made/noise_1.area"
sheets=(word_*.sheet)
[ ${#sheets[@]} = $((3 * ${#at_fault[@]})) ] || fail "${#sheets[@]} sheets with a word at fault, not 3 for each of ${#at_fault[@]}"
for words in "${at_fault[@]}"; do
  read -r name number at_word said <<<"$words"
  for where in "line packet 1 (line 9)" "none packet 1 (no line)" "beyond packet 1"; do
    sheet=word_${name}_${where%% *}.sheet
    refused $number 1 "$sheet: ${where#* }, word $at_word $said" list $sheet
  done
  sheet=word_${name}_line.sheet
  refused $number 1 "$sheet: packet 1 (line 9), word $at_word $said" lay 2 $sheet noise_1.area
  refused $number 1 "$sheet: packet 1 (line 9), word $at_word $said" mxf-write 0 $sheet new.anc
  start=lister expect 0 "refused $number at 1 $at_word" "" <$sheet
done
at_word=0

# ---- packets as found, in ten bits

# Those of the same packets that have no other fault are written, come back byte for byte, and are listed as before. The others are refused at the
# same word: over 3FFh, CS too, with 8 and words of its own.
written=0
for words in "${at_fault[@]}"; do
  read -r name number at_word said <<<"$words"
  sheet=word_${name}_line.sheet element=$made/word_${name}_line.anc where="packet 1 (line 9), word $at_word $said"
  if [ -e "$element" ]; then
    bytes=$(stat -c %s "$element") numbers=$(($(stat -c %s $sheet) / 2))
    gives new.anc "$element" "written packets 2 bytes $bytes" mxf-write 0 $sheet new.anc --ten
    # In 1080 FI comes back as 0.
    cp $sheet right.sheet
    poke right.sheet 9 '\000'
    keep
    gives back.sheet right.sheet "read packets 2 numbers $numbers" mxf-read 1 1 "$element" back.sheet --ten
    refused $number 1 "right.sheet: $where" list right.sheet
    at_word=0 refused 18 1 "${sheet/line/none}: packet 1 (no line)" mxf-write 0 ${sheet/line/none} new.anc --ten
    at_word=0 refused 11 0 ${sheet/line/beyond} mxf-write 0 ${sheet/line/beyond} new.anc --ten
    written=$((written + 1))
  elif [ $name != cs_of_1 ]; then
    [ $number != 10 ] || number=8
    [ $number != 8 ] || instead=$over
    refused $number 1 "$sheet: $where" mxf-write 1 $sheet new.anc --ten
    refused $number 1 "${sheet/line/none}: ${where/line 9/no line}" mxf-write 0 ${sheet/line/none} new.anc --ten
    refused $number 1 "${sheet/line/beyond}: ${where/ (line 9)/}" mxf-write 0 ${sheet/line/beyond} new.anc --ten
    instead=
  fi
done
[ $written = 17 ] || fail "$written of the packets are written as found"
at_word=0
refused 7 2 "word_cs_of_1_line.sheet: packet 2, word 0 (flag) is 1D8h" mxf-write 0 word_cs_of_1_line.sheet new.anc --ten

# Two faults: the order of the tests (tests/command_files.py, faults_as_found).
fresh "$made/"*_as_found.sheet "$made/noise_1.area"
two_faults=(
  "parity_then_over 8 1 7 packet 1 (line 9), word 7 (user word 1) is 400h" "cs_then_over 8 1 4 packet 1 (line 9), word 4 (SDID) is 400h"
  "parity_then_flag 7 1 2 packet 1 (line 9), word 2 (flag) is 000h" "parity_then_cut 9 1 8 packet 1 (line 9), word 8 (user word 2) is missing"
  "over_then_cut 9 1 8 packet 1 (line 9), word 8 (CS) is missing" "dc_over_then_cut 8 1 5 packet 1 (line 9), word 5 (DC) is 5FFh"
  "over_then_few 7 1 5 packet 1 (line 9), word 5 (DC) is missing" "over_then_cs_over 8 1 7 packet 1 (line 9), word 7 (user word 1) is 400h"
  "over_then_flag 8 0 7 packet 0 (line 561), word 7 (user word 1) is 400h" "dc_then_flag 7 1 0 packet 1 (line 9), word 0 (flag) is 1D8h"
  "parity_then_11 11 0 0" "over_then_11 8 1 7 packet 1, word 7 (user word 1) is 400h"
  "over_then_18 8 1 7 packet 1 (line 9), word 7 (user word 1) is 400h" "fewer_then_18 11 0 0"
  "passed_over 8 3 6 packet 3 (no line), word 6 (CS) is 400h"
)
sheets=(*_as_found.sheet)
[ ${#sheets[@]} = ${#two_faults[@]} ] || fail "${#sheets[@]} sheets with two faults, not ${#two_faults[@]}"
for words in "${two_faults[@]}"; do
  read -r name number place at_word where <<<"$words"
  [ $number != 8 ] || instead=$over
  for output in new.anc noise_1.area nowhere/new.anc; do
    refused $number $place "${name}_as_found.sheet${where:+: $where}" mxf-write 0 ${name}_as_found.sheet $output --ten
  done
  instead=
done
at_word=0

# Any ten bits, in each system and with each FI; what is not used, and padding, may have any bits too.
for y in 1 2 3; do
  fresh "$made/"{damaged_$y.sheet,{damaged,noisy}_${y}_{0,1}.anc}
  for fi in 0 1; do
    right=damaged_${y}_$fi
    packets=70
    [ $y != 3 ] || packets=35
    numbers=$(($(stat -c %s "$made/$right.sheet") / 2))
    gives new.anc $right.anc "written packets $packets bytes $(stat -c %s $right.anc)" mxf-write $fi damaged_$y.sheet new.anc --ten
    for element in {damaged,noisy}_${y}_$fi.anc; do
      gives back.sheet "$made/$right.sheet" "read packets $packets numbers $numbers" mxf-read $y $fi $element back.sheet --ten
    done
    cp "$made/$right.sheet" back.sheet
    runs list back.sheet
    [ "$status$out" = "1$(cat "$made/$right.text")"$'\n' ] || fail "status $status, '$out'"
    rm back.sheet
    # An element of one coding is none of the other: the coding of the first packet is at fault.
    keep
    refused 19 25 "$right.anc: byte 25" mxf-read $y $fi $right.anc back.sheet
  done
  cp "$made/full_$y.anc" .
  keep
  refused 19 25 "full_$y.anc: byte 25" mxf-read $y 0 full_$y.anc back.sheet --ten
done

# At their limits. A sheet that is sound comes back the same from either coding.
for y in 1 2 3; do
  fresh "$made/"{wide,wide_less,full}"_$y.sheet" "$made/"{wide{,_less,_over,_limit,_long,_long_over}_$y,wide_words,full_ten_$y}.anc
  for name in wide wide_less; do
    numbers=32768
    [ $name = wide ] || numbers=32767
    gives new.anc ${name}_$y.anc "written packets $most bytes $longest_ten" mxf-write 0 ${name}_$y.sheet new.anc --ten
    gives back.sheet ${name}_$y.sheet "read packets $most numbers $numbers" mxf-read $y 0 ${name}_$y.anc back.sheet --ten
  done
  gives wide_less_$y.sheet wide_$y.sheet "read packets $most numbers 32768" mxf-read $y 0 wide_long_$y.anc wide_less_$y.sheet --ten
  gives new.anc full_ten_$y.anc "written packets $most bytes $(stat -c %s full_ten_$y.anc)" mxf-write 0 full_$y.sheet new.anc --ten
  gives back.sheet full_$y.sheet "read packets $most numbers 32768" mxf-read $y 0 full_ten_$y.anc back.sheet --ten
  for sheet in back.sheet full_$y.sheet; do
    for element in wide_over_$y.anc wide_words.anc; do
      [ $y$element != 3wide_words.anc ] || continue
      second="$sheet: $even" refused 17 0 $element mxf-read $y 0 $element $sheet --ten
    done
    refused 5 $most wide_limit_$y.anc mxf-read $y 0 wide_limit_$y.anc $sheet --ten
    wrong "wide_long_over_$y.anc: longer than the 262144 bytes that are read" mxf-read $y 0 wide_long_over_$y.anc $sheet --ten
    refused 19 0 "/dev/null: byte 0" mxf-read $y 0 /dev/null $sheet --ten
  done
  # 5 comes before 17, 20 before 5, and 19 before 20: the packet over the limit, whose structure is the last of 62 bytes each.
  cp wide_limit_$y.anc bad.anc
  poke bad.anc $((22 + 62 * most)) '\001\054'
  keep
  instead="line 300 is a picture line" refused 20 $most "bad.anc: packet $most" mxf-read $y 0 bad.anc new.file --ten
  poke bad.anc $((24 + 62 * most)) '\002'
  keep
  refused 19 $((24 + 62 * most)) "bad.anc: byte $((24 + 62 * most))" mxf-read $y 0 bad.anc new.file --ten
done

# 19 at every field of an element: the byte that is changed, how, and the byte that is named. The packets' structures begin at bytes 22 and 44.
fresh_jobs
for words in '0 \007 0' '7 \000 7' '15 \377 15' '16 \202 16' '16 \004 16' '17 \001 17' '18 \001 17' '19 \055 17' '19 \057 17' \
  '20 \001 66' '21 \003 66' '21 \001 44' '21 \000 22' '22 \377 22' '23 \000 22' '22 \003 22' '24 \000 24' '24 \001 24' '24 \005 24' \
  '25 \000 25' '25 \004 25' '25 \005 25' '25 \006 25' '25 \011 25' '25 \012 25' '25 \207 25' '26 \001 26' '27 \000 26' '27 \003 26' \
  '26 \001\004 26' '26 \001\003 28' '27 \007 28' '31 \036 66' \
  '28 \001 28' '28 \377\377\377\377 28' '30 \001 28' '31 \000 28' '31 \004 28' '31 \007 28' '31 \037 28' '32 \001 32' '34 \001 32' '35 \000 32' \
  '35 \002 32' '27 \005 38' '27 \004 38' '38 \026 38' '38 \025 38' '39 \000 38' '39 \014 38' '39 \377 38' \
  '45 \000 44' '46 \001 46' '47 \004 47' '47 \011 47' '49 \003 48' '49 \006 60' '53 \007 50' '53 \011 50' '57 \000 54' '61 \000 60'; do
  read -r at byte place <<<"$words"
  cp found.anc bad.anc
  poke bad.anc $at "$byte"
  keep
  refused 19 $place "bad.anc: byte $place" mxf-read 3 0 bad.anc new.file --ten
done
for output in frame.area nowhere/new.file; do
  refused 19 60 "bad.anc: byte 60" mxf-read 3 0 bad.anc $output --ten
done
# Cut, with a length that says so: what is missing is at the end, but for arrays, which are their counts' fault.
for size in {0..65}; do
  head -c $size found.anc >bad.anc
  [ $size -lt 20 ] || poke bad.anc 19 "$(printf '\\%03o' $((size - 20)))"
  keep
  place=$size
  [ $size -lt 32 ] || [ $size -ge 44 ] || place=28
  [ $size -lt 54 ] || place=50
  refused 19 $place "bad.anc: byte $place" mxf-read 3 0 bad.anc new.file --ten
done
# Bytes behind it, of which the length says nothing, or all.
cp found.anc bad.anc
length bad.anc 68
keep
refused 19 17 "bad.anc: byte 17" mxf-read 3 0 bad.anc new.file --ten
poke bad.anc 19 '\060'
keep
refused 19 66 "bad.anc: byte 66" mxf-read 3 0 bad.anc new.file --ten
# Not at fault: what is not used, the upper bits of DC, any other sample.
for words in '39 \013' '43 \143' '61 \007' '65 \377' '38 \034' '38 \000' '36 \377\377' '40 \000\000\000\000' '40 \377\377\377\377'; do
  cp found.anc other.anc
  poke other.anc ${words% *} "${words#* }"
  expect 0 "read packets 2 numbers 25" "" mxf-read 3 0 other.anc new.file --ten
  case $words in
  '39 '* | '43 '* | '61 '* | '65 '*) cmp -s new.file "$made/found_0.sheet" || fail "what is not used has changed the sheet" ;;
  *) ! cmp -s new.file "$made/found_0.sheet" || fail "the sheet is as it was" ;;
  esac
done
# Lines 7 and 26 in place of 9 and 13.
for words in '0 23 \007 7 is kept free for switching' '1 45 \032 26 is a picture line'; do
  read -r packet byte line instead <<<"$words"
  instead="line $instead"
  cp found.anc bad.anc
  poke bad.anc $byte "$line"
  keep
  for output in new.file frame.area nowhere/new.file; do
    for fi in 0 1; do
      refused 20 $packet "bad.anc: packet $packet" mxf-read 3 $fi bad.anc $output --ten
    done
  done
  instead=
  refused 3 0 SYSTEM mxf-read 4 0 bad.anc new.file --ten
  refused 19 25 "bad.anc: byte 25" mxf-read 3 0 bad.anc new.file
  poke bad.anc $((44 - 22 * packet)) '\377'
  keep
  refused 19 $((44 - 22 * packet)) "bad.anc: byte $((44 - 22 * packet))" mxf-read 3 0 bad.anc new.file --ten
done

# ---- elements of other programs (docs/OUTSIDE-ELEMENTS.md): the byte at which each is refused, then mended

# long_form FILE: the length of the element in four bytes, not in one.
long_form() { { head -c 16 "$1"; printf '\203\000\000'; tail -c +17 "$1"; } >mended && mv mended "$1"; }
for name in gstreamer_000 gstreamer_004 ffmpeg_004; do
  element=$name.anc
  fresh "$top/tests/vectors/$element"
  case $name in
  gstreamer_*)
    refused 19 16 "$element: byte 16" mxf-read 1 0 $element back.sheet
    long_form $element
    ;;
  ffmpeg_*)
    refused 19 15 "$element: byte 15" mxf-read 1 0 $element back.sheet
    poke $element 15 '\001'
    ;;
  esac
  keep
  refused 19 38 "$element: byte 38" mxf-read 1 0 $element back.sheet
  poke $element 27 '\114'
  expect 0 "read packets 1 numbers 86" "" mxf-read 1 0 $element back.sheet
  lists back.sheet 0 "system 1 packets 1 bytes 80 packs 21"$'\n'"0 9 2 61 01 73"
  [ "$(tail -c 1 back.sheet | od -An -tx1)" = "$(od -An -tx1 -j112 -N1 $element)" ] || fail "the CS that is made is not the one that was counted"
done

# ---- streams

fresh_jobs
cp frame.area folder/target
ln -s folder/target link
cp "$made/10_line.sheet" "$made/14_1.area" "$made/full_1.sheet" "$made/over_then_11_as_found.sheet" .
mkfifo silent
keep
# What is said of 10_line.sheet, before the words of 10.
wrong_cs="packet 0 (line 9), word 8 (CS) is 1D9h"
has_over="over_then_11_as_found.sheet: packet 1, word 7 (user word 1) is 400h: $over"

# each_output WRITER: the outputs are in `outputs`: a file to replace, one through a link, and a new one.
each_output() {
  outputs=(frame.area link)
  [ "$1" = lay ] || outputs+=(new.file)
}

# target OUTPUT: the file that it is.
target() { target=${1/#link/folder\/target}; }

# A pipe that nobody reads is on 6; $work/limited is full for a process that may not write behind its first 1,024 bytes.
mkfifo "$work/pipe"
exec 5<>"$work/pipe" 6>"$work/pipe" 5>&-
full_output() { vanc "$@" >/dev/full; }
broken_output() { vanc "$@" >&6; }
limited_output() (ulimit -f 1 && vanc "$@" >>"$work/limited")
readable_output() { vanc "$@" 1<"$work/limited"; }
closed_output() { timely "$@" >&-; }
closed_input() { vanc "$@" <&-; }
closed_error() { vanc "$@" 2>&-; }
full_error() { vanc "$@" 2>/dev/full; }
broken_error() { vanc "$@" 2>&6; }
closed_input_error() { vanc "$@" <&- 2>&-; }
closed_input_output() { timely "$@" <&- >&-; }
closed_output_error() { timely "$@" >&- 2>&-; }
closed_all() { timely "$@" <&- >&- 2>&-; }
declare -A reasons=([full]=$space [broken]="Broken pipe" [limited]="File too large" [readable]="Bad file descriptor")

for stream in full broken limited readable; do
  head -c 1024 /dev/zero >"$work/limited"
  start=${stream}_output
  why="standard output: ${reasons[$stream]}"
  for writer in "${writers[@]}"; do
    # An area has more than 1,024 bytes itself.
    [ $writer$stream != laylimited ] || continue
    each_output $writer
    for name in "${outputs[@]}"; do
      job $writer $name
      target $name
      expect 2 "" "$why"$'\n'"$name was written" "${job[@]}"
      sees became $target "$right"
    done
  done
  for words in list\ {cue,full_1}.sheet help --help help\ {refusals,list,lay,mxf-read} {list,read,mxf-write}\ --help --version; do
    wrong "$why"$'\n'"$unchanged" $words
  done
  wrong "$why"$'\n'"$unchanged" list <cue.sheet
  wrong "10_line.sheet: $wrong_cs: ${refusals[10]}"$'\n'"$why"$'\n'"$unchanged" list 10_line.sheet
  wrong "10_line.sheet: $wrong_cs: ${refusals[10]}"$'\n'"$why"$'\n'"$unchanged" lay 1 10_line.sheet frame.area
  wrong "14_1.area: packet 1: ${refusals[14]}"$'\n'"$why"$'\n'"$unchanged" read 1 14_1.area frame.area
  wrong "SYSTEM: ${refusals[3]}"$'\n'"$why"$'\n'"$unchanged" mxf-read 4 0 film.anc new.file
  wrong "$has_over"$'\n'"$why"$'\n'"$unchanged" mxf-write 0 over_then_11_as_found.sheet frame.area --ten
  wrong "film.anc: byte 25: ${refusals[19]}"$'\n'"$why"$'\n'"$unchanged" mxf-read 3 0 film.anc new.file --ten
  # What prints nothing has no use for it. With a limit standard error has one too.
  [ $stream = limited ] || front='' wrong "$overview"
  wrong "PACKING: 'x' is no number" lay x cue.sheet frame.area
  wrong "nothing.sheet: $absent" list nothing.sheet
  wrong "folder: a folder; $regular" lay 1 cue.sheet folder
  [ "$(stat -c %s "$work/limited")" = 1024 ] || fail "the file has grown"
done

# A listing, as far as there is room.
little_output() (ulimit -f 1 && vanc "$@" >"$work/limited")
start=little_output wrong "standard output: File too large"$'\n'"$unchanged" list full_1.sheet
head -c 1024 "$made/full_1.text" | cmp -s - "$work/limited" || fail "other bytes are printed"

# Standard output closed: nothing is looked at.
for start in closed_output closed_input_output closed_output_error closed_all; do
  why=
  [[ $start == *error || $start == *all ]] || why="standard output: Bad file descriptor"$'\n'"$unchanged"
  for words in '' x lay lay\ {x\ y\ z,3\ cue.sheet\ frame.area,1\ {silent\ frame.area,cue.sheet\ frame.area,cue.sheet\ folder,nothing\ nothing}} \
    list{,\ silent,\ cue.sheet,\ nothing,\ 10_line.sheet} read\ 1\ {silent,laid_1.area}\ {frame.area,new.file,link,nowhere/x} \
    mxf-write\ 0\ film.sheet\ {new.file,--ten,new.file\ --ten} mxf-read\ 3\ 0\ {film.anc,silent}\ new.file{,\ --ten} \
    help{,\ lay,\ x,\ refusals,\ lay\ read} \
    --help lay\ --help --version; do
    wrong "$why" $words
  done
done

# Standard input closed, or nothing that can be read.
start=closed_input
wrong "standard input: Bad file descriptor" list
expect 0 "$listing" "" list cue.sheet
for start in closed_input vanc; do
  for writer in "${writers[@]}"; do
    each_output $writer
    for name in "${outputs[@]}"; do
      target $name
      works $writer $name $target <folder
    done
  done
  at_word=8 refused 10 0 "10_line.sheet: $wrong_cs" lay 1 10_line.sheet frame.area <folder
  expect 0 "$version" "" --version <folder
done
wrong "standard input: Is a directory" list <folder
wrong "standard input: Bad file descriptor" list 0>"$work/limited"

# Standard error closed, full, or read by nobody: the rest is as ever, and no message is in a file.
# Standard output may be full besides.
unprinted() { "$inner" "$@" >/dev/full; }
for start in closed_error full_error broken_error closed_input_error; do
  for writer in "${writers[@]}"; do
    each_output $writer
    for name in "${outputs[@]}"; do
      target $name
      works $writer $name $target
      inner=$start start=unprinted expect 2 "" "" "${job[@]}"
      sees became $target "$right"
      for fault in "fsync 1,unlink 1" "rename 1,unlink 1"; do
        expect 2 "" "" "${job[@]}"
        sees beside "$(dirname $target)" "$right" any "$(stat -c %s "$right")"
      done
      fault=
    done
    stops "" $writer frame.area nothing.file
    stops "" $writer folder
    wrong "" "${job[0]}" x
  done
  wrong ""
  wrong "" x
  expect 1 "refused 10 at 0 8" "" lay 1 10_line.sheet frame.area
  expect 1 "refused 14 at 1" "" read 1 14_1.area new.file
  expect 1 "refused 8 at 1 7" "" mxf-write 0 over_then_11_as_found.sheet new.file --ten
  expect 1 "refused 19 at 25" "" mxf-read 3 0 film.anc new.file --ten
  expect 1 "refused 10 at 0 8" "" list 10_line.sheet
  expect 0 "$listing" "" list cue.sheet
  expect 0 "$overview" "" help
  sees untouched
done
start=vanc

# A full disk: no file may have more than 1,024 bytes. The signal that would end the command is of no effect.
fresh "$samples/cue.sheet" "$samples/frame.area" "$made/"{fill_2_2.area,full_1.sheet,full_1.anc,wide_1.sheet,wide_1.anc}
ln -s folder/new.file link
keep
full_disk() (ulimit -f 1 && vanc "$@")
start=full_disk
for words in lay\ 1\ cue.sheet\ TO read\ 2\ fill_2_2.area\ TO mxf-write\ 0\ {full_1.sheet\ TO,wide_1.sheet\ TO\ --ten} \
  mxf-read\ 1\ 0\ {full_1.anc\ TO,wide_1.anc\ TO\ --ten}; do
  for name in frame.area new.file link; do
    [[ $words != lay* || $name = frame.area ]] || continue
    expect 2 "" "$name: not written: File too large" ${words/TO/$name}
    sees same
  done
done

# To the byte: a line that has room to the limit's last byte behind what stands in the file, and one that lacks one; an area of 9,600 bytes likewise.
need prlimit util-linux
fresh "$samples/cue.sheet" "$samples/frame.area"
line=$(vanc --version)
start=limited_output
head -c $((1024 - ${#line} - 1)) /dev/zero >"$work/limited"
expect 0 "" "" --version
[ "$(tail -n 1 "$work/limited" | tr -d '\0')" = "$line" ] || fail "a line that has room is not printed"
head -c $((1024 - ${#line})) /dev/zero >"$work/limited"
wrong "standard output: File too large"$'\n'"$unchanged" --version
[ "$(stat -c %s "$work/limited")" = 1024 ] || fail "not as much is printed as there is room for"
room_disk() (prlimit --pid "$BASHPID" --fsize="$room" && vanc "$@")
start=room_disk room=9599
expect 2 "" "frame.area: not written: File too large" lay 1 cue.sheet frame.area
sees same
room=9600
expect 0 "laid packs 10 bytes 30" "" lay 1 cue.sheet frame.area
! cmp -s "$samples/frame.area" frame.area || fail "the area is as it was"
start=vanc

# ---- calls that fail

# attempt FAULT: the job is run with that fault. It does its work, to $file, or says why not and leaves every file as it was; what came is in
# `came`: "done", or what was said.
attempt() {
  fault=$1
  runs "${job[@]}"
  fault=
  came=${err//$'\n'$front/$'\n'}
  came=${came#"$front"}
  came=${came%$'\n'}
  lines "$came"
  [ "$err" = "$lines" ] || fail "said '$err'"
  if [ "$status" = 0 ]; then
    [ -z "$came" ] || fail "said '$came', with status 0"
    [ "$out" = "$line"$'\n' ] || fail "printed '$out'"
    sees became $file "$right"
    came=done
  elif [ "$status" != 2 ]; then
    fail "status $status; it said '$came'"
  elif [ "$came" = "standard output: $space"$'\n'"$output was written" ]; then
    [[ $line == "$out"* ]] || fail "printed '$out'"
    sees became $file "$right"
  else
    [ -z "$out" ] || fail "printed '$out', with status 2"
    sees same
  fi
}

# comes FAULT WORDS: that is met, and WORDS come.
comes() {
  attempt "$1"
  $met || [ "$2" = done ] || fail "there is no such call"
  [ "$came" = "$2" ] || fail "'$came', not '$2'"
}

# each CALL WORDS..: the job's calls of that name fail, one after the other. Each time one of the WORDS comes, and in the end all of them have, but
# for those with a ? in front.
each() {
  local call=$1 n=1 words
  local -A may=() left=()
  shift
  for words in "$@"; do
    may[${words#\?}]=1
    [[ $words == \?* ]] || left[$words]=1
  done
  while attempt "$call $n" && $met; do
    [ -n "${may[$came]-}" ] || fail "'$came'"
    unset "left[$came]"
    n=$((n + 1))
  done
  [ "$came" = done ] || fail "'$came'"
  [ ${#left[@]} = 0 ] || fail "never '${!left[*]}'"
}

# withstands OLD: every call that the job makes, failing. OLD says whether there is a file to replace.
withstands() {
  local inputs=("$input") maybe many="Too many open files" io="Input/output error" not="$output: not written" reads=0 bytes name call
  [ "${job[0]}" != lay ] || inputs+=("$output")
  maybe=("${inputs[@]/#/?}")
  bytes=$(stat -c %s "$right")
  each stat "$output: $denied" "?$input: $denied"
  each fstat "?done" "${maybe[@]/%/: $io}" "?standard output: $io"$'\n'"$unchanged"
  each read "${inputs[@]/%/: $io}"
  each close done
  if [ -L "$output" ]; then
    each readlink "$output: $io"
  else
    each readlink "?$output: $io" "?done"
  fi
  if $1; then
    each open "${inputs[@]/%/: $many}"
    each beside "$not: $many"
    each fchown done
    each fchmod "$not: Operation not permitted"
  else
    each open "${inputs[@]/%/: $many}" "$not: $many"
    each beside
    each fchown
    each fchmod
  fi
  each getentropy "?done" "?$not: Function not implemented"
  each write "$not: $space"
  each nothing "$not: $space"
  each fsync "$not: $io"
  each rename "$not: Invalid cross-device link"
  each unlink
  each print "standard output: $space"$'\n'"$output was written"
  # One byte at a time there are as many calls as bytes, and one more where a file ends.
  for name in "${inputs[@]}"; do
    comes "short,read $((reads + 2))" "$name: $io"
    reads=$((reads + $(stat -Lc %s "$name") + 1))
    comes "short,read $reads" "$name: $io"
  done
  for call in "write 1" "write 2" "nothing 2" "write $bytes"; do
    comes "short,$call" "$not: $space"
  done
  for call in short "short,read $((reads + 1))" "short,write $((bytes + 1))"; do
    comes "$call" done
  done
  for call in "print 1" "print 5"; do
    comes "short,$call" "standard output: $space"$'\n'"$output was written"
  done
}

fresh_jobs
cp frame.area folder/area
ln -s folder/area to_area
ln -s folder/target link
keep
for writer in "${writers[@]}"; do
  job $writer frame.area
  file=frame.area withstands true
  if [ $writer = lay ]; then
    job $writer to_area
    file=folder/area withstands true
  else
    job $writer folder/new.file
    file=folder/new.file withstands false
    job $writer link
    file=folder/target withstands false
  fi
done

# Where neither the owner nor the group can be kept, which is no error, the nine bits of permission are.
if $root; then
  chown 65534:65534 frame.area
  chmod 4755 frame.area
  keep
  for writer in "${writers[@]}"; do
    job $writer frame.area
    fault="fchown 1,fchown 2" expect 0 "$line" "" "${job[@]}"
    sees became frame.area "$right" 755 0:0
  done
fi

# Listings. The lister says what is wrong, and has no status.
fresh "$samples/cue.sheet"
fault="open 1" wrong "cue.sheet: Too many open files" list cue.sheet
for fault in "read 1" "read 2" "short,read 3"; do
  wrong "standard input: Input/output error" list <cue.sheet
  wrong "cue.sheet: Input/output error" list cue.sheet
  start=lister front='' expect 0 "" "standard input: Input/output error" <cue.sheet
done
fault="print 1"
wrong "standard output: $space"$'\n'"$unchanged" list cue.sheet
start=lister front='' expect 0 "" "standard output: $space" <cue.sheet
fault=
start=lister front='' expect 0 "" "standard input: Is a directory" <folder
sees untouched

# The largest files, one byte at a time.
fresh "$made/full_1.sheet" "$made/full_1.anc" "$made/fill_2_2.area" "$made/fill_2_2.sheet" "$made/wide_1.sheet" "$made/wide_1.anc"
fault=short
lists full_1.sheet 0 "$(cat "$made/full_1.text")"
gives new.file full_1.anc "written packets $most bytes $longest" mxf-write 0 full_1.sheet new.file
gives new.file full_1.sheet "read packets $most numbers 32768" mxf-read 1 0 full_1.anc new.file
gives new.file wide_1.anc "written packets $most bytes $longest_ten" mxf-write 0 wide_1.sheet new.file --ten
gives new.file wide_1.sheet "read packets $most numbers 32768" mxf-read 1 0 wide_1.anc new.file --ten
gives new.file fill_2_2.sheet "$(cat "$made/fill_2_2.read")" read 2 fill_2_2.area new.file
fault=

# The name of the file beside is by chance.
fresh_jobs
job read new.file
names=()
for _ in 1 2; do
  fault="rename 1,unlink 1" expect 2 "" "new.file: not written: Invalid cross-device link" "${job[@]}"
  names+=(.vanc-??????)
  sees beside . "$right" 644
done
[ "${names[0]}" != "${names[1]}" ] || fail "${names[0]} is beside twice"

# ---- runs that are killed, and many at once

# At each call: up to the renaming the file is the old one, then the new one; a file beside may be left.
# What bash says of a process that was killed goes to the subshell's standard error.
killed() (vanc "$@")
start=killed
for writer in "${writers[@]}"; do
  for name in frame.area new.file; do
    [ $writer$name != laynew.file ] || continue
    fresh_jobs
    job $writer $name
    for fault in "kill "{"stat 1","open 1","open 2","read 1","read 2","beside 1","write 1","fsync 1","fchown 1","fchmod 1","rename 1"} \
      "short,kill write "{2,20} "kill print 1"; do
      runs "${job[@]}"
      ask killed $name "$right" 644
      if ! $met; then
        [ "$status $answer" = "0 new" ] || fail "status $status, $answer"
        rm $name
        [ $name = new.file ] || cp "$samples/frame.area" $name
        keep
      elif [ "$fault" = "kill print 1" ]; then
        [ "$status $answer" = "137 new" ] || fail "status $status, $answer"
      else
        [ "$status $answer" = "137 old" ] || fail "status $status, $answer"
      fi
    done
  done
done
fault= start=vanc

# At 200 moments, spread over the time that a run takes; every other run one byte at a time, which takes longer. Nothing ever comes on 7.
mkfifo "$work/silence"
exec 7<>"$work/silence"
fresh "$samples/cue.sheet" "$samples/frame.area"
quick=("${starter[@]}" "$program")
slow=(env LD_PRELOAD="$work/failing.so" FAULT=short "$program")
[ ${#starter[@]} = 0 ] || slow=("${starter[@]}" -E LD_PRELOAD="$work/failing.so" -E FAULT=short "$program")
declare -A took=() ends=([old]=0 [new]=0)
for pace in quick slow; do
  declare -n how=$pace
  from=${EPOCHREALTIME/./}
  for _ in 1 2 3 4; do
    "${how[@]}" lay 1 cue.sheet frame.area >"$work/stdout"
  done
  took[$pace]=$(((${EPOCHREALTIME/./} - from) / 4))
done
keep
for n in {0..199}; do
  pace=slow packing=$((n / 2 % 2 + 1))
  [ $((n % 2)) = 0 ] || pace=quick
  declare -n how=$pace
  this="${how[*]} lay $packing cue.sheet frame.area"
  "${how[@]}" lay $packing cue.sheet frame.area >"$work/stdout" 2>&1 &
  printf -v moment '%07d' $((took[$pace] * n / 170))
  IFS= read -r -t "${moment:0:-6}.${moment: -6}" -u 7 _ || true
  kill -KILL $! 2>/dev/null || true
  { wait $! || true; } 2>/dev/null
  ask killed frame.area "$made/laid_$packing.area" 644
  [ -n "${ends[$answer]-}" ] || fail "killed after $moment millionths of a second: $answer"
  ends[$answer]=$((ends[$answer] + 1))
  done_tests=$((done_tests + 1))
done
[ "${ends[old]}" -gt 0 ] && [ "${ends[new]}" -gt 0 ] || fail "${ends[old]} runs were killed in time, ${ends[new]} too late"

# crowd WRITER OUTPUT: 400 jobs at once are done.
crowd() {
  local pids=() pid
  job "$@"
  this="400 runs of '${job[*]}' at once"
  : >"$work/stdout"
  for _ in {1..400}; do
    "${quick[@]}" "${job[@]}" >>"$work/stdout" 2>&1 &
    pids+=($!)
  done
  for pid in "${pids[@]}"; do
    wait "$pid" || fail "status $?: $(sort "$work/stdout" | uniq -c)"
  done
  [ "$(uniq -c "$work/stdout")" = "    400 $line" ] || fail "$(sort "$work/stdout" | uniq -c)"
  sees became "$2" "$right"
  done_tests=$((done_tests + 400))
}
fresh_jobs
crowd lay frame.area
crowd read new.file

# Who reads while another lays sees one frame or the other.
cp laid_1.area frame.area
(for n in {1..100}; do "${quick[@]}" lay $((n % 2 + 1)) cue.sheet frame.area || exit 1; done) >"$work/laying" 2>&1 &
for _ in {1..100}; do
  runs read 1 frame.area new.file
  [[ $status$out == 0"read packing "[12]" packets 3 numbers 40"$'\n' ]] || fail "status $status, '$out'; it said '$err'"
  cmp -s cue.sheet new.file || fail "another sheet is read"
done
wait $! || fail "laying at the same time: $(sort "$work/laying" | uniq -c)"
done_tests=$((done_tests + 100))

# ---- scripts

fresh_jobs
cp "$made/10_line.sheet" bad.sheet
keep
mkdir "$work/bin"
printf '#!/bin/sh\nexec %s "$@"\n' "${quick[*]}" >"$work/bin/vanc"
chmod +x "$work/bin/vanc"
# script WORDS: a script that has `vanc` among its commands.
script() { PATH=$work/bin:$PATH bash -c "$1"; }
start=script
bad="bad.sheet: $wrong_cs: ${refusals[10]}"
expect 1 "refused 10 at 0 8" "$bad" 'vanc lay 1 bad.sheet frame.area && echo no'
expect 1 "refused 10 at 0 8" "$bad" 'set -e; vanc lay 1 bad.sheet frame.area; echo no'
expect 1 "refused 10 at 0 8" "$bad" 'set -o pipefail; vanc list bad.sheet | cat'
expect 0 "refused 10 at 0 8"$'\n'"1" "$bad" 'vanc lay 1 bad.sheet frame.area || echo $?'
expect 0 "2" "nothing.sheet: $absent" 'if vanc lay 1 nothing.sheet frame.area; then echo no; else echo $?; fi'
expect 0 "2" "usage: ${usage[lay]}" 'vanc lay || echo $?'
sees untouched
expect 0 "laid packs 10 bytes 30"$'\n'"yes" "" 'set -e; vanc lay 1 cue.sheet frame.area; echo yes'
sees became frame.area laid_1.area
start=vanc

echo "command: $done_tests runs as expected, $SECONDS s"
