#!/usr/bin/env python3
"""cases.py REPOSITORY JUNCTION FOLDER: the logs of the examples and of test programs by the built program JUNCTION, each as
FOLDER/NAME.log beside FOLDER/NAME.words, the paths of its program, PUA file, times, intergreens and detectors, and FOLDER/NAME.code,
the code of its program. And junctions of hostile texts: FOLDER/hostile.list has for each the command, the status of JUNCTION and the
paths of its four texts and of its note."""
import pathlib
import random
import re
import subprocess
import sys


def texts(repository):
    """the byte strings of crates/test_cases"""
    found = {}
    for name in ("programs", "sites"):
        source = (repository / f"crates/test_cases/src/{name}.rt").read_text()
        for constant, text in re.findall(r'pub const (\w+): &\[u8\] = b"(.*?)";', source, re.S):
            text = re.sub(r"\\\n\s*", "", text)
            found[constant] = re.sub(
                r"\\x(..)", lambda m: chr(int(m[1], 16)), text.replace("\\n", "\n").replace('\\"', '"')
            ).encode("latin-1")
    return found


def detectors(seconds):
    """counts of all 64 detectors, large and small, rears never before their fronts"""
    so_far, lines = {}, []
    for _ in range(seconds):
        line = []
        for d in range(1, 65):
            if random.random() < 0.03:
                front, had = random.randint(0, 99), so_far.get(d, (0, 0))
                rear = random.randint(0, min(99, had[0] + front - had[1]))
                if front or rear:
                    so_far[d] = (had[0] + front, had[1] + rear)
                    line.append(f"{d}:{front}:{rear}")
        lines.append(" ".join(line) + "\n")
    return "".join(lines).encode()


def hostile_texts(repository):
    """the refused texts of crates/test_told that stand in place of a program or a PUA file, by 0 and 1"""
    cases = (repository / "crates/test_told/data/run_refused.txt").read_bytes()
    found = []
    for case in re.split(rb"(?m)^=== .*\n", cases)[1:]:
        for escapes, name, text in re.findall(rb"(?m)^--- (\\?)(p\.vap|p\.pua)\n((?:(?!--- ).*\n)*)", case):
            if escapes:
                text = re.sub(rb"\\([0-9a-f]{2})|\\\n", lambda at: bytes([int(at[1], 16)]) if at[1] else b"", text)
            found.append(((b"p.vap", b"p.pua").index(name), text))
    return found


def changed(text):
    """a text with one or two things changed: a byte, a piece that is lost or comes twice, a number, two lines swapped"""
    for _ in range(random.randint(1, 2)):
        way, at, n = random.randrange(6), random.randint(0, len(text)), random.randint(1, 9)
        lines = text.split(b"\n")
        if way == 0:
            text = text[:at] + bytes([random.choice(b" \t\r\n,;:.0189AKS$/*\x00\x7f\xff")]) + text[at + 1 :]
        elif way == 1:
            text = text[:at] + text[at + n :]
        elif way == 2:
            text = text[:at] + text[at : at + 4 * n] + text[at:]
        elif way == 3:
            numbers = list(re.finditer(rb"\d+", text))
            if numbers:
                one = random.choice(numbers)
                text = (
                    text[: one.start()]
                    + random.choice([b"0", b"1", b"99", b"100", b"255", b"2147483648", b"01"])
                    + text[one.end() :]
                )
        elif way == 4:
            i, k = random.randrange(len(lines)), random.randrange(len(lines))
            lines[i], lines[k] = lines[k], lines[i]
            text = b"\n".join(lines)
        else:
            text = text[:at]
    return text


def hostile(repository, junction, folder, sites, code_of):
    """junctions of which one text is changed, or is refused in test_told, or far too long"""
    given = texts(repository)
    base = [given["TIMER"], given["TWO_STAGES"], given["TIMES"], given["INTERGREENS"]]
    made = [[*base[:at], text, *base[at + 1 :]] for at, text in hostile_texts(repository)]
    codes = []
    made += [[*base[:at], base[at] + b" " * more, *base[at + 1 :]] for at in range(4) for more in (1 << 20, 1 << 21)]
    made += [[*base[:at], b"", *base[at + 1 :]] for at in range(4)]
    for site in sites:
        for _ in range(30):
            at = random.randrange(4)
            made.append([changed(text) if i == at else text for i, text in enumerate(site)])
        codes += [[changed(code), *rest] for code, *rest in [[code_of[site[0]], *site[1:]]] for _ in range(10)]
    codes.append(base)
    top, lines, names = folder / "hostile", [], ("program", "plan", "times", "intergreens")
    for number, (command, four) in enumerate([("run", four) for four in made] + [("exec", four) for four in codes]):
        place = top / str(number)
        place.mkdir(parents=True, exist_ok=True)
        for name, text in zip((*names, "detectors"), (*four, b"")):
            (place / name).write_bytes(text)
        run = subprocess.run([junction, command, *names, "detectors"], cwd=place, capture_output=True)
        (place / "note").write_bytes(run.stderr)
        lines.append(" ".join([command, str(run.returncode), *(str(place / name) for name in (*names, "note"))]))
    (folder / "hostile.list").write_text("\n".join(lines) + "\n")
    return len(lines)


def main(repository, junction, folder):
    junction = str(pathlib.Path(junction).resolve())
    repository, folder = pathlib.Path(repository).resolve(), pathlib.Path(folder).resolve()
    folder.mkdir(parents=True, exist_ok=True)
    cases = {}
    for program in sorted((repository / "crates/junction/examples").glob("**/*.vap")):
        site = program.parent
        files = [next(site.glob(name), None) for name in ("*.pua", "times.csv", "intergreens.csv")]
        traffic = next((site / name for name in ("detectors.txt", "traffic.txt") if (site / name).exists()), None)
        if all(files) and traffic:
            cases["_".join(program.relative_to(repository / "crates/junction/examples").with_suffix("").parts)] = [
                program,
                *files,
                traffic,
            ]
    given = texts(repository)
    random.seed(3)
    for name, text in given.items():
        if text.startswith(b"PROGRAM"):
            site = "FOUR_ARMS_" if name == "FOUR_ARMS" else ""
            parts = (
                text,
                given[site + "PLAN" if site else "TWO_STAGES"],
                given[site + "TIMES"],
                given[site + "INTERGREENS"],
                detectors(30),
            )
            words = [folder / f"test_{name.lower()}.{end}" for end in ("vap", "pua", "times", "intergreens", "detectors")]
            for word, part in zip(words, parts):
                word.write_bytes(part)
            cases[f"test_{name.lower()}"] = words
    code_of = {}
    for name, words in cases.items():
        run = subprocess.run([junction, "run", *words], capture_output=True)
        if run.returncode:
            print(name, "is not run:", run.stderr.decode().strip())
            continue
        code = subprocess.run([junction, "compile", words[0]], capture_output=True, check=True).stdout
        (folder / f"{name}.code").write_bytes(code)
        code_of[pathlib.Path(words[0]).read_bytes()] = code
        (folder / f"{name}.log").write_bytes(run.stdout)
        (folder / f"{name}.words").write_text(" ".join(map(str, words)) + "\n")
    sites = [
        [pathlib.Path(word).read_bytes() for word in words[:4]] for name, words in cases.items() if not name.startswith("test_")
    ]
    print(len(list(folder.glob("*.log"))), "logs,", hostile(repository, junction, folder, sites, code_of), "junctions of hostile texts")
    return 0


if __name__ == "__main__":
    sys.exit(main(*sys.argv[1:]) if len(sys.argv) == 4 else __doc__)
