"""How the charts look. Each mark has a shape of its own, and each colour a lightness of its own, so that all is told in grey and
by the colour-blind."""
from pathlib import Path

import matplotlib

matplotlib.use("Agg")
import matplotlib.pyplot as plot
from matplotlib.colors import Normalize
from matplotlib.patches import Polygon
from matplotlib.ticker import FuncFormatter, MultipleLocator

from drawing import chart_data as data
from common.reading import stamp_of, told

plot.rcParams.update({"font.size": 8, "font.family": "DejaVu Sans", "axes.titlesize": 11, "axes.titleweight": "bold",
                      "axes.titlelocation": "left", "axes.spines.top": False, "axes.spines.right": False, "svg.fonttype": "none",
                      "svg.hashsalt": "charts", "figure.dpi": 100, "hatch.linewidth": 0.6})
PAGE = (11.2, 7.4)  # inches: A4, landscape
GREEN, RED, BLUE, DARK, SOFT = "#00843d", "#c4161c", "#1f5fa8", "#16191c", "#c9ced3"
# how the ends of one cause look, the most frequent one first: sign, colour of its face and of its edge
MARKS = [("o", "#ffffff", GREEN), ("s", RED, DARK), ("^", BLUE, BLUE), ("x", DARK, DARK), ("D", "#ffd500", DARK),
         ("v", "#ffffff", RED), ("P", "#8a9199", DARK), ("*", "#ffffff", BLUE)]
DOTS, DASHES = (0, (1, 1.6)), (0, (6, 2.5))
STEPS = (10, 30, 60, 120, 300, 600, 900, 1800, 3600, 7200, 10_800, 21_600, 43_200, 86_400)


def time_axis(axis, first, last, begin):
    """Round times of the day, or seconds, on a horizontal axis."""
    step = next((step for step in STEPS if (last - first) / step <= 13), 86_400)
    axis.set_xlim(first, last)
    base = 1 - (int(begin) % step if begin is not None else 0)
    ticks = [at for at in range(base + -(-(first - base) // step) * step, last + 1, step)]
    axis.set_xticks(ticks)
    if begin is None:
        axis.set_xticklabels([str(at - 1 if base == 1 else at) for at in ticks])
        axis.set_xlabel("second")
    else:
        axis.set_xticklabels([stamp_of((begin + at - 1) % data.DAY)[:5 if step >= 60 else 8] for at in ticks])


def page(title, given, rows=1, columns=1, **more):
    figure, axes = plot.subplots(rows, columns, figsize=PAGE, squeeze=False, **more)
    figure.suptitle(given.title or title, x=0.02, ha="left", fontsize=12, fontweight="bold")
    return figure, axes


def limit(limits, stage):
    return limits.get(stage, limits.get(None))


def ended(ends, minimum, maximum, given):
    """A panel a stage: each end at its time and its length, with its cause; beside it how often each length came."""
    stages = sorted({end.stage for end in ends})
    counts = {cause: sum(end.cause == cause for end in ends) for cause in {end.cause for end in ends}}
    causes = sorted(counts, key=lambda cause: (-counts[cause], cause))
    looks = {cause: MARKS[min(k, len(MARKS) - 1)] for k, cause in enumerate(causes)}
    figure, axes = page("What ended each stage, and how long it lasted", given, len(stages), 2,
                        gridspec_kw={"width_ratios": [5, 1.2], "wspace": 0.04, "hspace": 0.28})
    longest = max(max(end.lasted for end in ends), *(list(maximum.values()) + list(minimum.values()) or [0]))
    first, last = 1, max(end.second for end in ends) + 1
    for stage, (main, side) in zip(stages, axes):
        mine = [end for end in ends if end.stage == stage]
        for cause in causes:
            sign, face, edge = looks[cause]
            own = [end for end in mine if end.cause == cause]
            more = {"color": edge} if sign == "x" else {"facecolor": face, "edgecolor": edge}
            main.scatter([end.second for end in own], [end.lasted for end in own], marker=sign, s=26, linewidth=1.1, zorder=3, **more)
        for limits, dashes in ((minimum, DOTS), (maximum, DASHES)):
            if limit(limits, stage) is not None:
                main.axhline(limit(limits, stage), linestyle=dashes, color=DARK, linewidth=1.1, zorder=2)
                side.axhline(limit(limits, stage), linestyle=dashes, color=DARK, linewidth=0.8)
        main.set_ylabel(f"stage {stage}\nlasted, s")
        main.set_ylim(0, longest * 1.12 + 1)
        main.grid(axis="y", color=SOFT, linewidth=0.5)
        time_axis(main, first, last, given.begin)
        if stage != stages[-1]:
            main.tick_params(labelbottom=False)
            main.set_xlabel("")
        lengths = [end.lasted for end in mine]
        side.hist(lengths, bins=[k - 0.5 for k in range(0, longest + 2)], orientation="horizontal", color="#8aa0b5", edgecolor="none")
        side.set_ylim(main.get_ylim())
        side.tick_params(labelleft=False)
        side.xaxis.set_major_locator(matplotlib.ticker.MaxNLocator(integer=True, nbins=4))
        told_rows = [f"{len(mine)} ends, mean {sum(lengths) / len(lengths):.1f} s"]
        told_rows += [f"{sum(end.cause == cause for end in mine) * 100 // len(mine)} % {short(cause)}" for cause in causes
                      if any(end.cause == cause for end in mine)]
        side.annotate("\n".join(told_rows[:6]), (1.06, 1), xycoords="axes fraction", va="top", fontsize=7.5, linespacing=1.4)
        if stage == stages[-1]:
            side.set_xlabel("ends of this length")
    handles = [plot.Line2D([], [], linestyle="", marker=looks[cause][0], markerfacecolor=looks[cause][1], markeredgecolor=looks[cause][2],
                           markersize=6, label=f"{short(cause, 70)} ({counts[cause]})") for cause in causes[:len(MARKS)]]
    for name, limits, dashes in (("minimum", minimum, DOTS), ("maximum", maximum, DASHES)):
        if limits:
            label = f"{name}, {limits[None]} s" if None in limits else name
            handles.append(plot.Line2D([], [], color=DARK, linestyle=dashes, linewidth=1.1, label=label))
    figure.legend(handles=handles, loc="upper left", bbox_to_anchor=(0.015, 0.955), ncol=min(6, len(handles)), frameon=False)
    figure.subplots_adjust(left=0.07, right=0.87, top=0.885, bottom=0.07)
    return figure


def short(text, most=34):
    return text if len(text) <= most else text[:most - 2] + ".."


def arrivals(cycles, group, detectors, given):
    """A column a cycle: the green as a band with its begin and its end, and each arrival at its second."""
    fixed = f", cycle of {given.cycle} s" if given.cycle else ", from end of green to end of green"
    names = ", ".join(map(str, detectors))
    figure, axes = page(f"Arrivals at {group} against its green: detectors {names}{fixed}", given, 1, 2,
                        gridspec_kw={"width_ratios": [5, 1.1], "wspace": 0.04})
    main, side = axes[0]
    longest = max(cycle.end - cycle.begin for cycle in cycles)
    for cycle in cycles:
        for a, b in cycle.greens:
            main.fill([cycle.begin, cycle.end, cycle.end, cycle.begin], [a, a, b, b], color=GREEN, alpha=0.18, linewidth=0)
            main.plot([cycle.begin, cycle.end], [a, a], color=GREEN, linewidth=1.6)
            main.plot([cycle.begin, cycle.end], [b, b], color=RED, linewidth=1.6)
    for is_green, look in ((True, {"facecolor": "#003d1c", "edgecolor": "#003d1c"}), (False, {"facecolor": "none", "edgecolor": DARK})):
        points = [(cycle.begin + (cycle.end - cycle.begin) * (0.3 + 0.4 * ((7 * k) % 5) / 4), at + 0.5)
                  for cycle in cycles for k, (at, green) in enumerate(cycle.arrivals) if green == is_green]
        if points:
            main.scatter(*zip(*points), s=11, linewidth=0.8, zorder=3, **look)
    main.set_ylim(0, longest * 1.02)
    main.set_ylabel("second of the cycle")
    main.yaxis.set_major_locator(MultipleLocator(next(step for step in (5, 10, 20, 30, 60, 120, 600) if longest / step <= 12)))
    main.grid(axis="y", color=SOFT, linewidth=0.5)
    time_axis(main, cycles[0].begin, cycles[-1].end, given.begin)
    width = 2 if longest <= 60 else 4
    places = [at for cycle in cycles for at, _ in cycle.arrivals]
    side.hist(places, bins=range(0, longest + width, width), orientation="horizontal", color="#8aa0b5", edgecolor="white", linewidth=0.4)
    side.set_ylim(main.get_ylim())
    side.tick_params(labelleft=False)
    side.set_xlabel(f"arrivals in {width} s")
    came, in_green, share, ratio = data.numbers_of(cycles)
    rows = [f"{len(cycles)} cycles", f"{came} arrivals"]
    if came:
        rows += [f"{100 * in_green:.0f} % came in green", f"{100 * share:.0f} % of the time\nis green"] + ([f"platoon ratio {ratio:.2f}"] if ratio else [])
    side.annotate("\n".join(rows), (1.06, 1), xycoords="axes fraction", va="top", fontsize=7.5, linespacing=1.4)
    handles = [plot.Line2D([], [], color=GREEN, linewidth=2, label="green begins"), plot.Line2D([], [], color=RED, linewidth=2, label="green ends"),
               plot.Line2D([], [], linestyle="", marker="o", color="#003d1c", markersize=4, label="came in green"),
               plot.Line2D([], [], linestyle="", marker="o", markerfacecolor="none", markeredgecolor=DARK, markersize=4, label="came while not green")]
    figure.legend(handles=handles, loc="upper left", bbox_to_anchor=(0.015, 0.955), ncol=4, frameon=False)
    figure.subplots_adjust(left=0.06, right=0.85, top=0.9, bottom=0.08)
    return figure


def percentiles(found, what, given):
    """A row a group: a line from 15 to 95 in a hundred, a bar up to 85, a stroke at the half, and the numbers."""
    figure, axes = page(f"How long {what}s were: 15, 50, 85 and 95 in a hundred were no longer", given)
    axis, names = axes[0][0], list(found)
    for row, name in enumerate(names):
        ranks = found[name]
        axis.plot([ranks[15], ranks[95]], [row, row], color=DARK, linewidth=1.2, zorder=2)
        axis.barh(row, ranks[85] - ranks[15], left=ranks[15], height=0.5, color="#b9c7d4", edgecolor=DARK, linewidth=0.8, zorder=3)
        axis.plot([ranks[50]] * 2, [row - 0.25, row + 0.25], color=DARK, linewidth=2.4, zorder=4)
        axis.plot([ranks[95]] * 2, [row - 0.14, row + 0.14], color=DARK, linewidth=1.2)
        if "mean" in ranks:
            axis.plot(ranks["mean"], row, marker="x", color=RED, markersize=5, zorder=5)
        numbers = " ".join(f"{ranks[rank]:>4g}" for rank in data.RANKS)
        axis.annotate(numbers, (1.01, row), xycoords=("axes fraction", "data"), va="center", family="DejaVu Sans Mono", fontsize=7.5)
    axis.annotate("  15   50   85   95", (1.01, 1.0), xycoords="axes fraction", va="bottom", family="DejaVu Sans Mono", fontsize=7.5, fontweight="bold")
    axis.set_yticks(range(len(names)), names)
    axis.set_ylim(len(names) - 0.4, -0.6)
    axis.set_xlim(left=0)
    axis.grid(axis="x", color=SOFT, linewidth=0.5)
    axis.set_xlabel("seconds; the bar is from 15 to 85 in a hundred, the thick stroke the half, the cross the mean")
    figure.subplots_adjust(left=0.1, right=0.84, top=0.9, bottom=0.09)
    if len(names) < 8:
        figure.set_size_inches(PAGE[0], 1.9 + 0.6 * len(names))
        figure.subplots_adjust(top=1 - 0.7 / figure.get_figheight(), bottom=0.6 / figure.get_figheight())
    return figure


def heat(found, given):
    """A row a day, a column an hour; each cell has its number."""
    line, name, key = given.show
    figure, axes = page(f"{key.replace('_', ' ')} of {name or line}, by day and hour", given)
    axis = axes[0][0]
    values = [value for row in found for value in row if value is not None]
    scale = Normalize(min(values), max(values) if max(values) > min(values) else min(values) + 1)
    colours = plot.get_cmap("cividis_r")
    for day, row in enumerate(found):
        for hour, value in enumerate(row):
            if value is None:
                axis.add_patch(plot.Rectangle((hour, day), 1, 1, facecolor="white", edgecolor=SOFT, hatch="///", linewidth=0.4))
                continue
            axis.add_patch(plot.Rectangle((hour, day), 1, 1, facecolor=colours(scale(value)), edgecolor="white", linewidth=0.6))
            axis.text(hour + 0.5, day + 0.5, f"{value:g}", ha="center", va="center", fontsize=7, color="white" if scale(value) > 0.55 else "black")
    first = stamp_of(given.begin).split(" ")[0] if given.begin is not None and given.begin >= data.DAY else None
    days = [stamp_of(given.begin + data.DAY * k).split(" ")[0] if first else f"day {k + 1}" for k in range(len(found))]
    axis.set_yticks([day + 0.5 for day in range(len(found))], days)
    axis.set_xticks(range(0, 25, 2), [f"{hour}:00" for hour in range(0, 25, 2)])
    axis.set_xlim(0, 24)
    axis.set_ylim(len(found), 0)
    bar = figure.colorbar(plot.cm.ScalarMappable(scale, colours), ax=axis, fraction=0.025, pad=0.01)
    bar.set_label(key.replace("_", " "))
    figure.set_size_inches(PAGE[0], 1.7 + 0.62 * len(found))
    figure.subplots_adjust(left=0.09, right=0.945, top=1 - 0.62 / figure.get_figheight(), bottom=0.4 / figure.get_figheight())
    return figure


def draw_bands(axis, found, places, delays, colour, hatch):
    """Each band as a shape from the first junction to the last."""
    for band in found:
        left = [(band.begin + delay, place) for delay, place in zip(delays, places)]
        right = [(band.end + delay, place) for delay, place in zip(delays, places)]
        axis.add_patch(Polygon(left + right[::-1], closed=True, facecolor=colour, alpha=0.25, linewidth=0))
        axis.add_patch(Polygon(left + right[::-1], closed=True, facecolor="none", edgecolor=colour, hatch=hatch, linewidth=0.8))


def names_of(stops):
    """What tells the logs apart: the names of the files, else of their folders."""
    files = [Path(one[0]) for one in stops]
    return [file.name for file in files] if len({file.name for file in files}) == len(files) else [file.parent.name for file in files]


def way(stops, given):
    """Time to the right, the way upwards: at each junction its reds as bars, and the bands of those who never stop."""
    stops = sorted(stops, key=lambda one: one[3])
    places = [one[3] for one in stops]
    first = given.first or max(one[5][0][0] for one in stops)
    last = min(given.last or first + 600, min(one[5][-1][0] for one in stops)) + 1
    if last <= first:
        raise SystemExit("the logs have no second in common")
    pace = 3.6 / given.speed
    figure, axes = page(f"Time and way at {given.speed:g} km/h", given)
    axis, height = axes[0][0], max(places[-1] - places[0], 1) / 60
    for file, group, back, place, names, records in stops:
        for one, at, colour in ((group, place, DARK), (back, place - 1.6 * height, "#777777")):
            if one is None:
                continue
            with told(file):
                greens = data.greens_of(names, records, one)
            edges = [first] + [edge for green in greens for edge in green if first < edge < last] + [last]
            for a, b in zip(edges, edges[1:]):
                is_green = any(x <= a < y for x, y in greens)
                look = {"color": "#bfe3cd", "linewidth": 2} if is_green else {"color": colour, "linewidth": 5}
                axis.plot([a, b], [at, at], solid_capstyle="butt", zorder=3, **look)
    for column, order, colour, hatch, label in ((1, 1, BLUE, "//", "forth"), (2, -1, "#b35900", "\\\\", "back")):
        on_way = stops[::order]
        if any(one[column] is None for one in on_way) or len(on_way) < 2:
            continue
        delays = [abs(one[3] - on_way[0][3]) * pace for one in on_way]
        greens = [data.greens_of(one[4], one[5], one[column]) for one in on_way]
        found = data.bands_of(greens, delays, first, last)
        draw_bands(axis, found, [one[3] for one in on_way], delays, colour, hatch)
        width = sum(band.end - band.begin for band in found) / len(found) if found else 0
        text = f"{label}: {len(found)} bands, {width:.1f} s wide in the mean"
        axis.plot([], [], color=colour, linewidth=6, alpha=0.5, label=text)
    axis.plot([], [], color=DARK, linewidth=5, label="not green")
    axis.plot([], [], color="#bfe3cd", linewidth=2, label="green")
    time_axis(axis, first, last, given.begin)
    axis.set_yticks(places, [f"{name}\n{one[1]}{', ' + one[2] if one[2] else ''}\n{one[3]:g} m" for name, one in zip(names_of(stops), stops)])
    axis.set_ylim(places[0] - 4 * height, places[-1] + 3 * height)
    axis.grid(axis="x", color=SOFT, linewidth=0.5)
    axis.yaxis.set_minor_formatter(FuncFormatter(lambda *_: ""))
    axis.legend(loc="upper left", bbox_to_anchor=(-0.02, 1.06), ncol=5, frameon=False)
    figure.subplots_adjust(left=0.08, right=0.985, top=0.89, bottom=0.08)
    return figure
