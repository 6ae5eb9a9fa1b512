#!/usr/bin/env bash
# The manual pages: mandoc has nothing to say of them, they say what the header says, and the program in vanc.3 compiles.
set -euo pipefail
cd "$(dirname "$0")/.."
. tests/machine.sh
need mandoc mandoc
need python3 python3
need_own_cc

work=$(mktemp -d)
trap 'rm -rf "$work"' EXIT
mkdir "$work/pages"

# In man/, where each page finds the other; pages of this machine are not looked for. Any message fails, also one of style.
status=0
said=$(cd man && MANPATH="$work/pages" mandoc -Tlint vanc.1 vanc.3 2>&1) || status=$?
if [ "$status" != 0 ] || [ -n "$said" ]; then
  echo "manual: mandoc -Tlint ended with status $status and says:"
  printf '%s\n' "$said"
  exit 1
fi
echo "man/vanc.1, vanc.3: mandoc -Tlint says nothing"

python3 tests/manual.py include/vanc.h man/vanc.1 man/vanc.3 "$work/example.c"
gcc -std=c99 -Wall -Wextra -pedantic -Werror -I include -fsyntax-only "$work/example.c"
echo "manual: $SECONDS s"
