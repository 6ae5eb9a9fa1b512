#!/usr/bin/env bash
# Edits that the prover must refuse, beside those of crates/*/must-fail, which rt ci tries:
#
#     tests/edits.sh                 all of tests/edits, as the gate does
#     tests/edits.sh CRATE ..        those of a crate, its must-fail edits among them
#     tests/edits.sh CRATE/NAME ..   one
#     tests/edits.sh --stand         proves nothing: that no edit is missing, and that each has its text in the crate once
set -euo pipefail
cd "$(dirname "$0")/.."
. tests/machine.sh
need python3 python3
exec python3 tests/edits.py "$@"
