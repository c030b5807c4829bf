"""Tables and plots of a study: means over seeds with 95 % intervals by Student's t."""
import math
import statistics

from sumo.study import COUNTS

# Student's t for 95 %, by degrees of freedom from 1 to 30
T = [12.706, 4.303, 3.182, 2.776, 2.571, 2.447, 2.365, 2.306, 2.262, 2.228, 2.201, 2.179, 2.160, 2.145, 2.131,
     2.120, 2.110, 2.101, 2.093, 2.086, 2.080, 2.074, 2.069, 2.064, 2.060, 2.056, 2.052, 2.048, 2.045, 2.042]
HEADS = {"teleports": "teleports", "collisions": "collisions", "emergency_stops": "emergency stops", "refused": "refused s",
         "faults": "faults s", "unsafe": "logs not safe", "breaches": "breaches"}


def student(freedom):
    """Half of the interval that holds 95 % of Student's t, in standard errors."""
    if freedom <= len(T):
        return T[freedom - 1]
    z = 1.959964  # that of the normal distribution, to which t comes near
    return z + (z ** 3 + z) / (4 * freedom) + (5 * z ** 5 + 16 * z ** 3 + 3 * z) / (96 * freedom ** 2)


def interval(values):
    """The mean, and half of its 95 % interval; no number for the half of a single value."""
    count = len(values)
    half = student(count - 1) * statistics.stdev(values) / math.sqrt(count) if count > 1 else math.nan
    return statistics.mean(values), half


def cell_of(values, digits):
    """A mean with its interval."""
    mean, half = interval(values)
    return f"{mean:.{digits}f}" + ("" if math.isnan(half) else f" ± {half:.{digits}f}")


def against(rows, name, other):
    """The differences of time loss of a name from another one, seed by seed."""
    first = {row["seed"]: float(row["loss"]) for row in rows if row["name"] == other}
    return [float(row["loss"]) - first[row["seed"]] for row in rows if row["name"] == name and row["seed"] in first]


def difference_of(rows, name, other):
    """The mean difference with its sign and its interval; empty where no seed has both."""
    pairs = against(rows, name, other) if name != other else []
    return ("+" if statistics.mean(pairs) >= 0 else "") + cell_of(pairs, 1) if pairs else ""


def total_of(rows, key):
    """The sum of a column, or that it wasn't judged."""
    values = [row[key] for row in rows]
    return "not judged" if "" in values else str(sum(int(value) for value in values))


def table_lines(rows, names):
    """The lines of the table: a line a name that has rows."""
    lines = ["| | runs | vehicles | time loss, s | against the first | stops | queue | "
             + " | ".join(HEADS[key] for key in COUNTS) + " |"]
    lines.append("|---" * (lines[0].count("|") - 1) + "|")
    for name in names:
        own = [row for row in rows if row["name"] == name]
        if not own:
            continue
        vehicles, loss = sum(int(row["vehicles"]) for row in own), cell_of([float(row["loss"]) for row in own], 1)
        cells = [name, str(len(own)), str(vehicles), loss, difference_of(rows, name, names[0]),
                 cell_of([float(row["stops"]) for row in own], 2), cell_of([float(row["queue"]) for row in own], 1)]
        cells += [total_of(own, key) for key in COUNTS]
        lines.append("| " + " | ".join(cells) + " |")
    return lines


def plot(rows, names, title, file):
    """Time loss, stops and queue of each name: a dot a run, and the mean with its interval."""
    try:
        import matplotlib
    except ImportError:
        return
    matplotlib.use("Agg")
    matplotlib.rcParams.update({"svg.fonttype": "none", "svg.hashsalt": "study"})  # text as text, and the same file each time
    from matplotlib import pyplot
    names = [name for name in names if any(row["name"] == name for row in rows)]
    figure, all_axes = pyplot.subplots(1, 3, figsize=(11, 0.6 + 0.45 * len(names)), sharey=True)
    for axes, (key, text) in zip(all_axes, (("loss", "time loss of a vehicle, s"), ("stops", "stops of a vehicle"),
                                            ("queue", "vehicles that halt at a time"))):
        for place, name in enumerate(reversed(names)):
            values = [float(row[key]) for row in rows if row["name"] == name]
            mean, half = interval(values)
            axes.plot(values, [place] * len(values), ".", color="0.7")
            axes.errorbar(mean, place, xerr=0 if math.isnan(half) else half, fmt="o", color="black", capsize=3, markersize=4)
        axes.set_xlabel(text)
        axes.set_xlim(left=0)
        axes.set_yticks(range(len(names)), reversed(names))
        axes.set_ylim(-0.6, len(names) - 0.4)
    all_axes[0].set_title(title, loc="left", fontsize=9)
    figure.tight_layout()
    figure.savefig(file, metadata={"Date": None} if file.suffix == ".svg" else None)
