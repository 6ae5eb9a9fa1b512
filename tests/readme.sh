#!/usr/bin/env bash
# README.md as a reader pastes it: its blocks of commands, one after the other, in a copy of the repository with what is built here, so that nothing
# is proved again.
set -euo pipefail
cd "$(dirname "$0")/.."
. tests/machine.sh
need python3 python3
need git git
need pkg-config pkg-config
need_cc
need_command
need_archive

work=$(mktemp -d)
trap 'rm -rf "$work"' EXIT
copy=$work/flettishum
mkdir -p "$copy/target"
git ls-files -z --cached --others --exclude-standard | while IFS= read -r -d '' file; do
  [ ! -e "$file" ] || printf '%s\0' "$file"
done | tar -c --null -T - | tar -x -C "$copy"
cp -a target/staticlib "$copy/target"
cp -a --parents "$executable" "$executable.of" "$copy"
[ "$command" = "$executable" ] || cp -a --parents "$command" "$copy"
python3 tests/readme.py "$copy" "$work"
echo "readme: $SECONDS s"
