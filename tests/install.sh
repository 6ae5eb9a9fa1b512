#!/usr/bin/env bash
# ./install as an operator calls it: which files are there afterwards, that each of them works from where it is, and that a call that fails changes
# nothing.
set -euo pipefail
cd "$(dirname "$0")/.."
. tests/machine.sh
need pkg-config pkg-config
need_cc
need_command
need_archive

work=$(mktemp -d)
trap 'rm -rf "$work"' EXIT
chmod 711 "$work"
unset DESTDIR PKG_CONFIG_PATH PKG_CONFIG_LIBDIR PKG_CONFIG_SYSROOT_DIR MANPATH

fail() {
  echo "install: $1" >&2
  exit 1
}

# modes: of each file that is installed its mode and its name below PREFIX.
modes() {
  [ "$(uname -m)" = x86_64 ] || echo "755 libexec/vanc-x86-64"
  printf '%s\n' '755 bin/vanc' '644 include/vanc.h' '644 lib/libvanc.a' '644 lib/pkgconfig/vanc.pc' '644 share/man/man1/vanc.1' \
    '644 share/man/man3/vanc.3'
}

# installs FOLDER COMMAND ..: the command ends well and prints the files below FOLDER; these are then there, with their modes, and no others.
installs() {
  local folder=$1
  shift
  "$@" >"$work/said" 2>"$work/progress" || fail "$*: $(cat "$work/progress")"
  diff <(modes | sed "s|^... |$folder/|" | LC_ALL=C sort) <(LC_ALL=C sort "$work/said") || fail "$*: other paths were printed"
  diff <(modes | LC_ALL=C sort) <(cd "$folder" && find . -type f -printf '%m %P\n' | LC_ALL=C sort) || fail "$*: other files, or other modes"
  [ -z "$(find "$folder" -type d ! -perm 755)" ] || fail "$*: a folder's mode"
  cmp include/vanc.h "$folder/include/vanc.h"
  cmp "$archive" "$folder/lib/libvanc.a"
  cmp man/vanc.1 "$folder/share/man/man1/vanc.1"
  cmp man/vanc.3 "$folder/share/man/man3/vanc.3"
}

# A program that says the version of its header, and how an area of no bytes is refused.
cat >"$work/small.c" <<'END'
#include <stdio.h>
#include <vanc.h>

int main(void)
{
    static uint8_t area[1];
    static uint16_t sheet[1];
    vanc_read_back read = vanc_read(1, area, 0, sheet, 1);
    printf("%s refused %d\n", VANC_VERSION, (int)read.number);
    return 0;
}
END

# works FOLDER: the command runs, also through a link, the program is built with what pkg-config says and runs, and `man` finds the pages.
works() {
  local folder=$1 version vanc said
  version=$(pkg-config --modversion vanc)
  ln -sfn "$folder/bin/vanc" "$work/linked"
  for vanc in "$folder/bin/vanc" "$work/linked"; do
    said=$("$vanc" --version)
    [ "$said" = "vanc $version, proved with $(cat TOOLCHAIN)" ] || fail "$vanc --version: $said"
  done
  # As a shell reads them: pkg-config quotes a space.
  eval "cc_for -std=c99 -Wall -Wextra -pedantic -Werror '$work/small.c' $(pkg-config --cflags --libs vanc) -o '$work/small'"
  said=$(run "$work/small")
  [ "$said" = "$version refused 4" ] || fail "the program built with $folder: $said"
  finds_page "$folder" 1
  finds_page "$folder" 3
}

# finds_page FOLDER SECTION: MANPATH leads to the page in that section, where this machine has `man`.
finds_page() {
  local page
  command -v man >/dev/null || return 0
  page=$(MANPATH=$1/share/man man -w "$2" vanc) || fail "man $2 vanc: not found below $1"
  [ "$page" = "$1/share/man/man$2/vanc.$2" ] || fail "man $2 vanc: $page"
}

# below FOLDER: everything there, with modes, and with sizes and times of files.
below() {
  find "$1" -type d -printf '%P %m\n' -o -printf '%P %y %m %s %T@ %l\n' | LC_ALL=C sort
}

# changes_nothing STATUS WORDS COMMAND ..: it ends with STATUS before anything is proved, prints nothing, says WORDS, and leaves $work/here as it is.
changes_nothing() {
  local status=$1 words=$2 got=0
  shift 2
  below "$work/here" >"$work/before"
  "$@" >"$work/said" 2>"$work/progress" || got=$?
  [ "$got" = "$status" ] || fail "$*: status $got, not $status"
  [ ! -s "$work/said" ] || fail "$*: printed $(cat "$work/said")"
  [[ $(cat "$work/progress") == *"$words"* ]] || fail "$*: said '$(cat "$work/progress")', not '$words'"
  ! grep -q '^build:' "$work/progress" || fail "$*: it built first"
  below "$work/here" | diff "$work/before" - || fail "$*: something changed"
}

mkdir "$work/here"
installs "$work/here/plain" ./install "$work/here/plain"
PKG_CONFIG_PATH=$work/here/plain/lib/pkgconfig works "$work/here/plain"

# Over itself. A file is replaced, not written into: another name of the old one keeps the old bytes.
echo old >"$work/here/plain/include/vanc.h"
chmod 600 "$work/here/plain/bin/vanc"
ln "$work/here/plain/include/vanc.h" "$work/old"
installs "$work/here/plain" ./install "$work/here/plain"
[ "$(cat "$work/old")" = old ] || fail "a file was written into"
PKG_CONFIG_PATH=$work/here/plain/lib/pkgconfig works "$work/here/plain"
echo "install: into a prefix, and over itself"

# A name with spaces, from the folder above.
installs "$work/here/with two spaces" env -C "$work/here" "$PWD/install" 'plain/../with two spaces/'
PKG_CONFIG_PATH="$work/here/with two spaces/lib/pkgconfig" works "$work/here/with two spaces"
echo "install: into a prefix with spaces"

# Below DESTDIR; vanc.pc is for the prefix alone. First with a prefix that is in the test's folder too: an ./install that passes DESTDIR over fails
# there, and does not come so far as to write to this machine's /usr/local.
installs "$work/here/staged$work/prefix" env DESTDIR="$work/here/staged/" ./install "$work/prefix"
[ ! -e "$work/prefix" ] || fail "with DESTDIR something was installed in the prefix itself"
installs "$work/here/staged/usr/local" env DESTDIR="$work/here/staged" ./install
export PKG_CONFIG_LIBDIR=$work/here/staged/usr/local/lib/pkgconfig
[ "$(pkg-config --variable=prefix vanc)" = /usr/local ] || fail "vanc.pc below DESTDIR: its prefix is $(pkg-config --variable=prefix vanc)"
PKG_CONFIG_SYSROOT_DIR=$work/here/staged works "$work/here/staged/usr/local"
echo "install: below DESTDIR"

# From the test's folder, in which a name that is not seen to be wrong would land.
for wrong in '' -p --prefix=/opt; do
  changes_nothing 2 'usage: ./install [PREFIX]' env -C "$work/here" "$PWD/install" "$wrong"
done
changes_nothing 2 'usage: ./install [PREFIX]' ./install "$work/here/a" "$work/here/b"
[[ $(./install --help) == 'usage: ./install [PREFIX]'* ]] || fail "--help says: $(./install --help)"

mkdir -p "$work/here/taken/lib/libvanc.a" "$work/here/closed"
touch "$work/here/file"
changes_nothing 1 "$work/here/file: not a folder" ./install "$work/here/file/below"
changes_nothing 1 "$work/here/taken/lib/libvanc.a: a folder stands there" ./install "$work/here/taken"

# A folder that may not be written in; root may, and is nobody for this.
chmod 755 "$work/here" "$work/here/closed"
nobody=(setpriv --reuid=65534 --regid=65534 --clear-groups)
if [ "$(id -u)" != 0 ]; then
  chmod 555 "$work/here/closed"
  changes_nothing 1 "$work/here/closed: cannot be written in" ./install "$work/here/closed/below"
elif "${nobody[@]}" test -x ./install 2>/dev/null; then
  changes_nothing 1 "$work/here/closed: cannot be written in" "${nobody[@]}" ./install "$work/here/closed/below"
else
  echo "install: skipped, a folder that may not be written in: root may, and nobody cannot reach this folder"
fi

# A toolchain that does not work: nothing is installed.
mkdir "$work/bin"
printf '#!/bin/sh\nexit 2\n' >"$work/bin/rt"
chmod 755 "$work/bin/rt"
below "$work/here" >"$work/before"
! PATH=$work/bin:$PATH ./install "$work/here/none" >"$work/said" 2>&1 || fail "it installed without a toolchain"
below "$work/here" | diff "$work/before" - || fail "without a toolchain something was installed"
echo "install: calls that fail change nothing"
echo "install: $SECONDS s"
