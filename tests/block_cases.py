#!/usr/bin/env python3
"""What crates/block_cases has to print: python3 tests/block_cases.py writes its stdout. 001, table 4 gives the order of the blocks in a frame,
document 01 where one starts."""
import pathlib

HOME = pathlib.Path(__file__).resolve().parent.parent / "crates" / "block_cases"
TABLE_4 = [(block, channel) for block in (0, 1, 2) for channel in (0, 1, 2, 3)]

lines = []
for sequences in (10, 12, 10):
    for sequence in range(sequences):
        for block, channel in TABLE_4:
            start = 80 * (3 * (sequences * channel + sequence) + block)
            lines.append(f"{sequence} VA {block},{channel} {start}\n")
(HOME / "stdout").write_text("".join(lines))
