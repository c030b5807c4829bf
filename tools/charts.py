#!/usr/bin/python3
"""charts.py CHART FILES.. --to PICTURE: charts of what the programs tell, as SVG, PDF or PNG

    charts.py ended ENDS.csv          what ended each stage over the day, from `junction_trace how-ended .. --csv`
    charts.py arrivals LOG --serves 1,2:K1        arrivals against green, by the second of the cycle
    charts.py percentiles SUMS.csv    how long greens, reds, cycles or waits were, from `log_report sums .. --csv`
    charts.py heat SUMS.csv --show GROUP:K1:share a number by day and hour, from `log_report sums .. --each 3600 --csv`
    charts.py way LOG:GROUP[,BACK]:METRES ..      time and way of several junctions, with the bands of a speed; LOG of what
                                      `junction net` writes is FILE#N for its junction N

They look as engineers know them: a diagram of phase termination, one of coordination, one of time and way. Each mark differs by
its shape too, so that nothing is lost in grey. The numbers are those of the files; what the script itself reckons of them is
told in docs/charts.md.

Needs Debian's python3-matplotlib."""
import argparse
import re
import sys
from pathlib import Path

from drawing import chart_data as data
from common.reading import Refused, log_of, moment, text_of, told, whole_from


def pair(text):
    name, sign, part = text.partition("=")
    if not sign or not name or not part:
        raise argparse.ArgumentTypeError(f"'{text}' isn't NAME=PART")
    return name, part


def by_stage(text):
    """A limit for all stages, `30`, or by stage, `1:30,2:20`."""
    if re.fullmatch("[0-9]{1,5}", text):
        return {None: int(text)}
    if not re.fullmatch("[0-9]{1,3}:[0-9]{1,5}(,[0-9]{1,3}:[0-9]{1,5})*", text):
        raise argparse.ArgumentTypeError(f"'{text}' isn't SECONDS or STAGE:SECONDS,..")
    return {int(stage): int(seconds) for stage, seconds in (one.split(":") for one in text.split(","))}


def serves(text):
    found = re.fullmatch(r"([0-9]{1,2}(?:,[0-9]{1,2})*):([A-Za-z_]\w*)", text)
    if not found:
        raise argparse.ArgumentTypeError(f"'{text}' isn't DETECTORS:GROUP, as 1,2:K1")
    return {int(detector) for detector in found[1].split(",")}, found[2]


def shown(text):
    parts = text.split(":")
    if len(parts) != 3:
        raise argparse.ArgumentTypeError(f"'{text}' isn't LINE:NAME:KEY, as GROUP:K1:share")
    return parts


def stop(text):
    found = re.fullmatch(r"(.+):([A-Za-z_]\w*)(?:,([A-Za-z_]\w*))?:([0-9]{1,6}(?:\.[0-9]+)?)", text)
    if not found:
        raise argparse.ArgumentTypeError(f"'{text}' isn't LOG:GROUP:METRES or LOG:GROUP,BACK:METRES")
    return found[1], found[2], found[3], float(found[4])


def speed(text):
    if not re.fullmatch(r"[0-9]{1,3}(\.[0-9]+)?", text) or float(text) == 0:
        raise argparse.ArgumentTypeError(f"'{text}' is no speed in km/h")
    return float(text)


def read_words():
    words = argparse.ArgumentParser(description=__doc__, formatter_class=argparse.RawDescriptionHelpFormatter)
    charts = words.add_subparsers(dest="chart", required=True, metavar="CHART")
    every = argparse.ArgumentParser(add_help=False)
    every.add_argument("--to", required=True, metavar="PICTURE", help="the file to write: .svg, .pdf or .png")
    every.add_argument("--title", metavar="TEXT")
    every.add_argument("--begin", type=moment, metavar="TIME", help="when second 1 begins, as 07:00:00 or 2026-05-12 07:00:00")
    ended = charts.add_parser("ended", parents=[every], help="what ended each stage")
    ended.add_argument("ends", metavar="ENDS.csv")
    ended.add_argument("--cause", type=pair, action="append", default=[], metavar="NAME=PART",
                       help="a name for ends that a term with this part decided")
    for name in ("minimum", "maximum"):
        ended.add_argument(f"--{name}", type=by_stage, default={}, metavar="SECONDS", help="a line, for all stages or as 1:30,2:20")
    arrivals = charts.add_parser("arrivals", parents=[every], help="arrivals against green")
    arrivals.add_argument("log", metavar="LOG")
    arrivals.add_argument("--serves", type=serves, required=True, metavar="DETECTORS:GROUP")
    arrivals.add_argument("--travel", type=whole_from(0, 600), default=0, metavar="N", help="seconds from the detectors to the stop line")
    arrivals.add_argument("--cycle", type=whole_from(1, 3600), metavar="N", help="a fixed cycle; else from end to end of green")
    arrivals.add_argument("--offset", type=whole_from(0, 3600), default=1, metavar="K", help="a second at which a cycle begins, else 1")
    percentiles = charts.add_parser("percentiles", parents=[every], help="how long greens, reds, cycles or waits were")
    percentiles.add_argument("sums", metavar="SUMS.csv")
    percentiles.add_argument("--what", choices=["green", "red", "cycle", "wait"], default="green")
    heat = charts.add_parser("heat", parents=[every], help="a number by day and hour")
    heat.add_argument("sums", metavar="SUMS.csv")
    heat.add_argument("--show", type=shown, required=True, metavar="LINE:NAME:KEY", help="as GROUP:K1:share or REFUSED:K1:MinGreen:times")
    way = charts.add_parser("way", parents=[every], help="time and way of several junctions")
    way.add_argument("stops", type=stop, nargs="+", metavar="LOG:GROUP[,BACK]:METRES")
    way.add_argument("--speed", type=speed, default=50.0, metavar="KMH", help="of the bands, else 50")
    way.add_argument("--from", dest="first", type=whole_from(1, 1_000_604_799), metavar="N")
    way.add_argument("--to-second", dest="last", type=whole_from(1, 1_000_604_799), metavar="N")
    given = words.parse_args()
    if Path(given.to).suffix not in (".svg", ".pdf", ".png"):
        words.error("--to wants a file that ends with .svg, .pdf or .png")
    return given


def part_of(text, number):
    """The log of a junction in what `net` writes, where the number of one is told."""
    parts = re.split(r"^JUNCTION ([0-9]+) [0-9]+\n", text, flags=re.MULTILINE)
    found = dict(zip(parts[1::2], parts[2::2]))
    if number not in found:
        raise Refused(1, f"there is no junction {number} of `junction net`")
    return found[number]


def read_log(file):
    """The groups and the seconds of a log, or of junction N of `net` for a file FILE#N."""
    name, sign, number = file.partition("#")
    with told(name):
        text = text_of(name)
        names, records = log_of(part_of(text, number) if sign else text)
        if not records:
            raise Refused(2, "the log has no second")
        return names, records


def drawn(given):
    """The figure of what is asked for."""
    from drawing import chart_looks as looks
    if given.chart == "ended":
        with told(given.ends):
            ends = data.ends_of(data.table(text_of(given.ends), "second", "stage", "lasted", "line"), given.cause)
            if not ends:
                raise Refused(0, "no stage ended")
        return looks.ended(ends, given.minimum, given.maximum, given)
    if given.chart == "arrivals":
        names, records = read_log(given.log)
        detectors, group = given.serves
        with told(given.log):
            cycles = data.cycles_of(names, records, group, detectors, given.travel, given.cycle, given.offset)
            if not cycles:
                raise Refused(0, f"{group} has no whole cycle")
        return looks.arrivals(cycles, group, sorted(detectors), given)
    if given.chart == "percentiles":
        with told(given.sums):
            found = data.percentiles_of(data.table(text_of(given.sums), "line", "name", "key", "value"), given.what)
            if not found:
                raise Refused(0, f"there are no percentiles of {given.what}s")
        return looks.percentiles(found, given.what, given)
    if given.chart == "heat":
        with told(given.sums):
            rows = data.table(text_of(given.sums), "from", "to", "line", "name", "key", "value")
            found = data.heat_of(rows, *given.show, int(given.begin or 0) % data.DAY)
        return looks.heat(found, given)
    return looks.way([(*one, *read_log(one[0])) for one in given.stops], given)


def main():
    given = read_words()
    try:
        figure = drawn(given)
    except ImportError as fault:
        print(f"{fault.name} isn't there for {sys.executable}: Debian has it as python3-matplotlib", file=sys.stderr)
        return 1
    figure.savefig(given.to, metadata={"Date": None} if given.to.endswith(".svg") else None)
    return 0


if __name__ == "__main__":
    sys.exit(main())
