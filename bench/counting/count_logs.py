#!/usr/bin/env python3
"""count_logs.py FOLDER JUNCTION LOG_REPORT [FORM..]: instructions for each second of a log (valgrind's callgrind) that
`junction audit` and the forms of `log_report` take, of logs of `traffic` with 5,000, 10,000 and 20,000 seconds: where the number
stays the same, the time grows as the log does. FOLDER is one that ../workloads.py filled."""
import itertools
import os
import sys

from count import SITE, count

SECONDS = [5_000, 10_000, 20_000]
FORMS = {
    "audit": ["LOG", *SITE],
    "sums": ["LOG"],
    "sums --each 900 --csv": ["LOG", "--each", "900", "--csv"],
    "diagram of 60 seconds": ["LOG", "1", "60"],
    "diagram of 3600 seconds": ["LOG", "1", "3600"],
    "text of 60 seconds": ["LOG", "1", "60"],
}


def write_log(junction, seconds):
    """Writes the log of so many lines of `traffic`, and returns its name."""
    with open("traffic.txt", encoding="utf-8") as whole, open("traffic_cut.txt", "w", encoding="utf-8") as short:
        short.writelines(itertools.islice(whole, seconds))
    name = f"traffic_{seconds}.log"
    os.system(f"{junction} run four_arms.vap {' '.join(SITE)} traffic_cut.txt > {name}")
    return name


def main():
    junction, log_report = os.path.abspath(sys.argv[2]), os.path.abspath(sys.argv[3])
    os.chdir(sys.argv[1])
    logs = [write_log(junction, seconds) for seconds in SECONDS]
    for form in sys.argv[4:] or FORMS:
        word = form.split()[0]
        told = []
        for log, seconds in zip(logs, SECONDS):
            words = [word, *(log if it == "LOG" else it for it in FORMS[form])]
            instructions, status, _ = count(junction if word == "audit" else log_report, words)
            told.append(f"{instructions / seconds:8,.0f}" if status == 0 and instructions is not None else f"status {status}")
        print(f"{form:24} {' '.join(told)}", flush=True)


if __name__ == "__main__":
    main()
