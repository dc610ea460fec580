#!/usr/bin/env python3
"""Days by 1, 2, 4 and 8 workers, of which any legal journal may come.

    tests/workers/workers.py [jobs=N] PATH DAY..

PATH is a build of rtgs. Of each file that is a day the second machine judges the journal line by line, and works out from it the whole output
with the closing balances, and what each party knows; `replay` and `follow` have to say the same. One line for each thing that went
wrong, then 'N days by workers, M failed'.
"""
import concurrent.futures
import os
import sys

sys.dont_write_bytecode = True
TESTS = os.path.dirname(os.path.dirname(os.path.abspath(__file__)))
sys.path[:0] = [TESTS + "/machines", TESTS + "/hostile"]
import second_machine as second
from hostile import Trying, Wrong, plainly
from running import RTGS


def try_day(at):
    """What went wrong of a day by so many workers, or None where it is no day."""
    program, path, workers = at
    trying = Trying({RTGS: os.path.abspath(program)})
    with open(path, "rb") as file:
        given = file.read()
    day, _ = second.read_alone(given)
    if day is None:
        return None
    try:
        lines, said, end = trying.by_workers(day, given, workers)
        # Behind the line END of a day may stand line ends, or what is said of it.
        given = given.rstrip(b"\r\n") + b"\n"
        trying.must(RTGS, "replay", given + plainly(second.journal_text(lines)), 0, [f"LEGAL;{len(lines)}"])
        output = plainly(second.output(day, lines, said, end))
        for party in sorted({account[2].decode() for account in day.accounts} | {system[0].decode() for system in day.systems}):
            trying.must(RTGS, f"follow {party}", given + output, 0, second.view(day, said, party))
    except Wrong as why:
        return f"{path} by {workers} workers: {why}"
    return ""


def main(words):
    jobs = int(words.pop(0)[5:]) if words and words[0].startswith("jobs=") else 1
    if len(words) < 2:
        print(__doc__)
        return 2
    with concurrent.futures.ProcessPoolExecutor(jobs) as pool:
        done = list(pool.map(try_day, [(words[0], path, workers) for path in words[1:] for workers in (1, 2, 4, 8)], chunksize=8))
    failed = [line for line in done if line]
    print("\n".join(failed[:20] + [f"{sum(line is not None for line in done)} days by workers, {len(failed)} failed"]))
    return 1 if failed else 0


if __name__ == "__main__":
    sys.exit(main(sys.argv[1:]))
