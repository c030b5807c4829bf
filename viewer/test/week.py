"""A log of a week, 604,800 seconds: the hour of the four arms again and again, with its seconds counted on."""
from pathlib import Path

HOUR = Path(__file__).resolve().parents[2] / "crates" / "test_told" / "data" / "four_arms" / "log.txt"


def week_log():
    header, *records = HOUR.read_text(encoding="ascii").splitlines()
    rests = [record.split("|", 1)[1] for record in records]
    lines = [f"{second}|{rests[(second - 1) % len(rests)]}\n" for second in range(1, 604801)]
    return "".join([header, "\n", *lines]).encode()
