#!/usr/bin/env python3
"""tools/install.py [--not-proved] PREFIX [NAME..]
tools/install.py PREFIX --remove
tools/install.py [--not-proved] --checksums [NAME..]

Copies the built programs (junction, junction_check, junction_trace, log_report; or those that are named) to PREFIX/bin, with their
manual pages and completions for bash and zsh, and writes PREFIX/share/vantulig/checksums.txt: the SHA-256 of each file, the commit,
the kit, and which programs come from a proof. It tells what it did. A program that isn't built, or is older than its sources, is
refused, and so is a file of another origin in the way; then nothing is copied. --remove takes away what it installed, and leaves a
file that was changed since. --checksums writes such a list of the built programs where they stand.

With --not-proved it copies what tools/build.py built without a proof in the place of what was proved. Then the list is named
checksums-not-proved.txt, and says so; both kinds don't stand below one PREFIX."""
import hashlib
import re
import shutil
import subprocess
import sys
from pathlib import Path

ROOT = Path(__file__).resolve().parent.parent
PROGRAMS = ["junction", "junction_check", "junction_trace", "log_report"]
LIST = Path("share/vantulig/checksums.txt")
UNPROVED_LIST = Path("share/vantulig/checksums-not-proved.txt")
SUM = re.compile(r"([0-9a-f]{64})  (.+)")
MADE = "# made the folder "
STAMPED = "as `rt run` left it after its proof"
GATED = "as `rt ci` left it after its proof, with the other compiler's build beside it"
UNKNOWN = "not known to come from a proof: no trace of one beside it"
UNPROVED = "NOT PROVED: built without a proof by tools/build.py"


class Refused(Exception):
    """What can't be installed or removed, and why."""


def sum_of(file):
    return hashlib.sha256(file.read_bytes()).hexdigest()


def built(name, is_proved=True):
    """Where a program is built: by `rt run` and `rt ci`, by tools/build.py --proved if that is all there is, or without a proof."""
    if not is_proved:
        return ROOT / "build" / "not-proved" / "bin" / name
    own, taken = ROOT / "crates" / name / "out" / name, ROOT / "build" / "proved" / "bin" / name
    return taken if taken.is_file() and not own.is_file() else own


def crates_below(name):
    """The crates of the repository on which one stands, itself among them."""
    text = (ROOT / "crates.txt").read_text(encoding="utf-8")
    uses = {found[0]: found[1].split() for found in re.findall(r"^(\w+)[^:#\n]*:(.*)$", text, re.MULTILINE)}
    below, left = set(), [name]
    while left:
        one = left.pop()
        if one in uses and one not in below:
            below.add(one)
            left += uses[one]
    return below


def newest_source(name):
    """The source that changed last of all from which a program is built."""
    files = [file for one in crates_below(name) for part in ("src", "specs", "proofs") for file in (ROOT / "crates" / one / part).rglob("*")]
    return max((file for file in files if file.suffix in (".rt", ".antt")), key=lambda file: file.stat().st_mtime, default=None)


def why_not(name, is_proved=True):
    """Why a program can't be installed; None where it can."""
    program = built(name, is_proved)
    if name not in PROGRAMS:
        return f"there is no program {name}: {', '.join(PROGRAMS)}"
    if not program.is_file():
        how = f"in crates/{name}, `rt run -- --version` proves and builds it" if is_proved else f"`tools/build.py {name}` builds it"
        return f"{name} isn't built: {how}"
    source = newest_source(name)
    if source and source.stat().st_mtime > program.stat().st_mtime:
        how = f"in crates/{name}, `rt run -- --version` builds it anew" if is_proved else f"`tools/build.py {name}` builds it anew"
        return f"{name} is older than {source.relative_to(ROOT)}: {how}"
    return None


def origin(name, is_proved=True):
    """Where a program comes from, by what the kit leaves beside it. `rt run` writes a stamp that ends with the program's sum; `rt ci`
    empties the folder, and builds by both compilers once the proof has passed; tools/build.py --proved lists what it took."""
    if not is_proved:
        return UNPROVED
    taken = ROOT / "build" / "proved"
    if built(name).is_relative_to(taken):
        lines = (taken / "checksums.txt").read_text(encoding="utf-8").splitlines() if (taken / "checksums.txt").is_file() else []
        known = [line.partition(": ")[2] for line in lines if line.startswith(f"# bin/{name}: ")]
        return known[0] if known and f"{sum_of(built(name))}  bin/{name}" in lines else UNKNOWN
    stamp, other = built(name).with_name(f"{name}.stamp"), built(name).with_name(f"{name}.by-rattle")
    if stamp.is_file():
        return STAMPED if stamp.read_text(encoding="utf-8").endswith(sum_of(built(name))) else UNKNOWN
    return GATED if other.is_file() else UNKNOWN


def answer_of(*words):
    """The first line that a command writes; None where it can't be run or fails."""
    try:
        done = subprocess.run(words, cwd=ROOT, capture_output=True, text=True)
    except OSError:
        return None
    return done.stdout.strip() if done.returncode == 0 else None


def where_from():
    """The lines that say which commit and which kit something is built of."""
    changed = answer_of("git", "status", "--porcelain", "--", "crates", "crates.txt")
    commit = answer_of("git", "rev-parse", "HEAD") or "unknown, since this is no clone"
    if changed:
        commit += ", with changes in crates that are not committed"
    kit = answer_of("rt", "version") or "unknown, since no rt is on the path"
    return [f"# commit {commit}", f"# kit {kit}"]


def head_of(names, place, is_proved):
    """The lines of a list above its sums: where it comes from."""
    return [*where_from(), *(f"# {place(name)}: {origin(name, is_proved)}" for name in names)]


def files_for(names, is_proved):
    """What is copied: each place below PREFIX with its source."""
    files = {}
    for name in names:
        files[Path("bin") / name] = built(name, is_proved)
        files[Path("share/man/man1") / f"{name}.1"] = ROOT / "docs" / f"{name}.1"
        files[Path("share/bash-completion/completions") / name] = ROOT / "tools" / "completion" / "vantulig.bash"
    files[Path("share/zsh/site-functions/_vantulig")] = ROOT / "tools" / "completion" / "_vantulig"
    return files


def installed(prefix, place=LIST):
    """What a list below PREFIX says: the places with their sums, and the folders that were made."""
    lines = (prefix / place).read_text(encoding="utf-8").splitlines() if (prefix / place).is_file() else []
    sums = [SUM.fullmatch(line) for line in lines]
    folders = [line[len(MADE):] for line in lines if line.startswith(MADE)]
    return {Path(found[2]): found[1] for found in sums if found}, folders


def make_folders(prefix, place):
    """Makes the folders of a place, and answers which were not there, the outermost first."""
    lacking = [folder for folder in place.parents if not (prefix / folder).is_dir()]
    (prefix / place).parent.mkdir(parents=True, exist_ok=True)
    return [str(folder) for folder in reversed(lacking)]


def install(prefix, names, is_proved):
    reasons = [reason for reason in (why_not(name, is_proved) for name in names) if reason]
    chosen, other = (LIST, UNPROVED_LIST) if is_proved else (UNPROVED_LIST, LIST)
    before, folders = installed(prefix, chosen)
    if (prefix / other).exists():
        reasons.append(f"{prefix / other} is there: `tools/install.py {prefix} --remove` first, so that proved and not proved don't mix")
    files = files_for(names, is_proved) if not reasons else {}
    reasons += [f"{prefix / place} is of another origin" for place in files if (prefix / place).exists() and place not in before]
    if reasons:
        raise Refused("\n".join([*reasons, "nothing is installed"]))
    for place, source in files.items():
        folders += make_folders(prefix, place)
        shutil.copyfile(source, prefix / place)
        (prefix / place).chmod(0o755 if place.parent == Path("bin") else 0o644)
        print(f"{prefix / place}")
    folders += make_folders(prefix, chosen)
    kept = [place for place in before if place not in files and (prefix / place).is_file()]
    sums = [f"{sum_of(prefix / place)}  {place}" for place in [*files, *kept]]
    head = head_of(names, lambda name: f"bin/{name}", is_proved)
    made = [MADE + folder for folder in dict.fromkeys(folders)]
    (prefix / chosen).write_text("\n".join([*head, *made, *sums]) + "\n", encoding="utf-8")
    print(f"{prefix / chosen}", *head, sep="\n")


def remove(prefix):
    place = UNPROVED_LIST if (prefix / UNPROVED_LIST).is_file() else LIST
    sums, folders = installed(prefix, place)
    if not sums:
        raise Refused(f"{prefix / LIST} isn't there, so nothing is known to be installed")
    left = []
    for copied, known in sums.items():
        file = prefix / copied
        if file.is_file() and sum_of(file) != known:
            left.append(f"{file} was changed since, and stays")
        elif file.is_file():
            file.unlink()
            print(f"removed {file}")
    (prefix / place).unlink()
    print(f"removed {prefix / place}")
    for folder in reversed(folders):
        if (prefix / folder).is_dir() and not any((prefix / folder).iterdir()):
            (prefix / folder).rmdir()
    if left:
        raise Refused("\n".join(left))


def write_checksums(names, is_proved):
    reasons = [reason for reason in (why_not(name, is_proved) for name in names) if reason]
    if reasons:
        raise Refused("\n".join(reasons))
    place = lambda name: built(name, is_proved).relative_to(ROOT)
    sums = [f"{sum_of(built(name, is_proved))}  {place(name)}" for name in names]
    print("\n".join([*head_of(names, place, is_proved), *sums]))


def main(words):
    options, names = [word for word in words if word.startswith("--")], [word for word in words if not word.startswith("--")]
    is_proved = "--not-proved" not in options
    if options == ["--help"]:
        print(__doc__)
        return
    if not is_proved:
        options.remove("--not-proved")
    try:
        if options == ["--checksums"]:
            write_checksums(names or PROGRAMS, is_proved)
        elif options == ["--remove"] and len(names) == 1:
            remove(Path(names[0]).expanduser().resolve())
        elif not options and names:
            install(Path(names[0]).expanduser().resolve(), names[1:] or PROGRAMS, is_proved)
        else:
            sys.exit(__doc__)
    except Refused as refused:
        sys.exit(str(refused))
    except OSError as fault:
        sys.exit(f"{fault.filename}: {fault.strerror}")


if __name__ == "__main__":
    main(sys.argv[1:])
