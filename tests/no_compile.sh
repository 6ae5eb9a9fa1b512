#!/usr/bin/env bash
# Programs that must not compile: each tests/no_compile/*.edit, put into a copy of its crate, is refused by the compiler with the words after
# 'says:'. (An edit of tests/edits or of a must-fail folder is refused by the prover; a type error is not one of those.)
set -euo pipefail
cd "$(dirname "$0")/.."
. tests/machine.sh
need perl perl
passed=0 failed=0
home=$(mktemp -d)
trap 'rm -rf "$home"' EXIT
for edit in tests/no_compile/*.edit; do
  get() { sed -n "s/^$1: //p" "$edit"; }
  crate=$(get crate) file=$(get file) says=$(get says)
  # The crate and what it rests on. rt looks for what needs no proof first: nothing is proved but libraries of which it keeps nothing on this machine.
  rm -rf "$home/copy"
  mkdir -p "$home/copy"
  mapfile -t crates < <(behind "$crate")
  lines_of "${crates[@]}" >"$home/copy/crates.txt"
  files_of "${crates[@]}" | xargs -0 cp --parents -t "$home/copy"
  if OLD=$(get old) NEW=$(get new) perl -0pi -e 's/\Q$ENV{OLD}\E/$ENV{NEW}/ or die "the old text is not there\n"' "$home/copy/$file" \
    && (cd "$home/copy/crates/$crate" && rt check --only= >"$home/said" 2>&1 || true) && grep -qF "$says" "$home/said"; then
    echo "$edit: refused by the compiler, as it must be"
    passed=$((passed + 1))
  else
    cat "$home/said" 2>/dev/null || true
    echo "$edit: NOT refused so"
    failed=$((failed + 1))
  fi
done
echo "no_compile: $passed passed, $failed failed, $SECONDS s"
[ "$failed" = 0 ]
