#!/usr/bin/env python3
"""step.py JUNCTION VAP PUA TIMES INTERGREENS [SECONDS], or: step.py --library VAP PUA TIMES INTERGREENS [SECONDS]

Drives a controller as a simulation does: a second's detector counts out, its record in. JUNCTION is the built program,
--library the Python package `vantulig` in its place. It prints the header, the last record, and how many seconds were made in
one; it makes 10,000 of them where SECONDS isn't said."""
import argparse
import random
import sys
import time
from pathlib import Path

sys.path.append(str(Path(__file__).resolve().parents[3] / "tools"))
import controllers


def main():
    words = argparse.ArgumentParser(usage=argparse.SUPPRESS, description=__doc__,
                                    formatter_class=argparse.RawDescriptionHelpFormatter)
    words.add_argument("--library", action="store_true", help=argparse.SUPPRESS)
    words.add_argument("words", nargs="*", help=argparse.SUPPRESS)
    given = words.parse_args()
    given.junction = None if given.library else given.words.pop(0) if given.words else ""
    if len(given.words) not in (4, 5):
        sys.exit(__doc__)
    seconds = int(given.words[4]) if len(given.words) == 5 else 10_000
    try:
        controller = controllers.controllers_of(given).open(*given.words[:4])
        header = record = controller.greet()
        begin = time.monotonic()
        for _ in range(seconds):
            controller.ask({detector: (1, 1) for detector in range(1, 13) if random.random() < 0.125})
            record = controller.answer()
    except controllers.Lost as lost:
        sys.exit(str(lost))
    print(f"{header}{record}{seconds / (time.monotonic() - begin):.0f} seconds a second")
    return controller.end()


if __name__ == "__main__":
    sys.exit(main())
