#!/usr/bin/env python3
"""tools/proved.py ARCHIVE

The proved static library of crates/junction_c, for library/Makefile: taken from what `rt ci` has proved on this machine, in a
minute; else proved by `rt lib`, in half an hour on an idle machine. tools/build.py --proved builds all programs and the library
in this way."""
import hashlib
import shutil
import subprocess
import sys
import tempfile
from pathlib import Path

import install
from building import kept_proofs
from building import lowering
from building.lowering import Refused

CRATE, LIBRARY = "junction_c", "library"
ARCHIVE = f"lib{CRATE}.a"
KEPT = "as `rt ci` kept it on this machine after its proof"


def take_kept(top, out, names):
    """Copies what `rt ci` has proved of these crates to a folder; answers whether it had all."""
    script = Path(__file__).with_name("building") / "kept_proofs.py"
    done = subprocess.run([sys.executable, "-B", script, lowering.kit(), top, out, *names], capture_output=True, text=True)
    if done.returncode not in (0, kept_proofs.NOT_KEPT):
        raise Refused(f"what `rt ci` has kept can't be taken\n{done.stdout}{done.stderr}".rstrip())
    return done.returncode == 0


def prove(top, crate, *words):
    """Proves a crate where it stands, with the kit's lines on standard error."""
    done = subprocess.run(["rt", *words], cwd=top / "crates" / crate, stdout=sys.stderr)
    if done.returncode:
        raise Refused(f"{crate} isn't proved: in crates/{crate}, `rt {' '.join(words)}` ends with status {done.returncode}")


def take_archive(top, out, say, kept=None):
    """The proved static library, with what tells of its proof. `kept` is a folder that has it already, as `rt ci` kept it."""
    with tempfile.TemporaryDirectory(prefix="proved-") as folder:
        if kept or take_kept(top, folder, [CRATE]):
            shutil.copy(Path(kept or folder) / ARCHIVE, out)
            return "proved anew over what `rt ci` kept on this machine"
    say(f"{CRATE}: not all below it is kept by `rt ci`, so `rt lib` proves it, which may take an hour")
    prove(top, CRATE, "lib")
    made = top / "crates" / CRATE / "out" / ARCHIVE
    if made != Path(out):
        shutil.copy(made, out)
    return "as `rt lib` left it after its proof"


def take_program(top, name, out, say, kept=None):
    """A proved program, with what tells of its proof. `kept` is a folder that has it already, as `rt ci` kept it."""
    if kept:
        shutil.copy(kept / name, out)
        return KEPT
    if install.why_not(name) is None and install.origin(name) != install.UNKNOWN:
        shutil.copy(install.built(name), out)
        return install.origin(name)
    if take_kept(top, out, [name]):
        return KEPT
    say(f"{name}: not all below it is kept by `rt ci`, so `rt run` proves it, which may take an hour")
    prove(top, name, "run", "--", "--version")
    shutil.copy(install.built(name), out)
    return install.origin(name)


def write_sums(folder, origins):
    """Writes the list of what was proved, beside it."""
    head = [*install.where_from(), *(f"# {place}: {origin}" for place, origin in origins.items())]
    files = [file for part in ("bin", "lib", "include") for file in sorted((folder / part).rglob("*"))]
    files = [file for file in [*files, *sorted(folder.glob("*.whl"))] if file.is_file() and not file.is_symlink()]
    sums = [f"{hashlib.sha256(file.read_bytes()).hexdigest()}  {file.relative_to(folder)}" for file in files]
    (folder / "checksums.txt").write_text("\n".join([*head, *sums]) + "\n", encoding="utf-8")


def take_library(top, folder, say, kept=None):
    """The library of what is proved, with what tells of its proof."""
    import build as building

    with tempfile.TemporaryDirectory(prefix="proved-") as made:
        room = Path(made)
        origin = take_archive(top, room / ARCHIVE, say, kept)
        shutil.copytree(top / "library" / "include", room / "include")
        shutil.copytree(top / "library" / "python", room / "module", ignore=building.MADE)
        places = [f"PROVED={room}/{ARCHIVE}", f"PACKAGE={room}/module/"]
        building.make(top, room, f"KIT={lowering.kit()}", *places, "all", "wheel")
        building.take_library(room, folder)
    return origin


def build(top, folder, names, say):
    """Puts proved programs, and the library, into a folder: all at once where `rt ci` has kept all of them."""
    (folder / "bin").mkdir(parents=True, exist_ok=True)
    (folder / "checksums.txt").unlink(missing_ok=True)
    origins = {}
    with tempfile.TemporaryDirectory(prefix="proved-") as made:
        kept = Path(made) if take_kept(top, made, [CRATE if name == LIBRARY else name for name in names]) else None
        for name in names:
            if name == LIBRARY:
                origins["lib/libjunction.a"] = told = take_library(top, folder, say, kept)
            else:
                origins[f"bin/{name}"] = told = take_program(top, name, folder / "bin", say, kept)
            say(f"{name}: {told}")
    write_sums(folder, origins)
    say(f"proved: {folder}")
    return 0


def main(words):
    if words == ["--help"] or len(words) != 1:
        print(__doc__)
        return 0 if words == ["--help"] else 2
    out = Path(words[0]).resolve()
    try:
        out.parent.mkdir(parents=True, exist_ok=True)
        told = take_archive(lowering.TOP, out, lambda text: print(text, file=sys.stderr))
    except Refused as refused:
        print(refused, file=sys.stderr)
        return 1
    print(f"{out.name}: {told}", file=sys.stderr)
    return 0


if __name__ == "__main__":
    sys.exit(main(sys.argv[1:]))
