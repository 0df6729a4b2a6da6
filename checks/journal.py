"""The journal from outside: what the program keeps in a file, opens again, refuses to open, and keeps when it is killed.

journal_file.py has rows over files, journal_again.py sessions over one file, journal_records.py journals that are cut or changed,
and journal_kills.py the rounds of kills. What is right comes from the formats' documents and from journal_model.py.
Usage: journal.py [PROGRAM]
"""

import concurrent.futures
import os
import time

import journal_again
import journal_file
import journal_kills
import journal_records
from common import Wrong, conclude, program_named


def failure(check, program):
    """What is wrong, if anything is."""
    try:
        check.check(program)
    except Wrong as why:
        return f"{check.name}: {why}"
    return None


def main():
    program, started = program_named(), time.monotonic()
    alone = [*journal_file.rows(), *journal_again.sessions()]
    found = [failure(it, program) for it in alone]
    with concurrent.futures.ThreadPoolExecutor(os.cpu_count() or 1) as pool:
        found += pool.map(lambda it: failure(it, program), journal_records.rows())
    found.append(failure(journal_kills.KILLS, program))
    conclude("journal", len(found), started, [it for it in found if it])


if __name__ == "__main__":
    main()
