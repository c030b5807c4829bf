"""Checksums of what a run comes from."""
import functools
import hashlib
import json
import subprocess
from pathlib import Path

from sumo.drive import TABLES, sites_of

HERE = Path(__file__).resolve().parent
OWN = [HERE.parent / "drive_sumo.py", HERE.parent / "controllers.py", *(HERE / name for name in
                                                                          ("drive.py", "detectors.py", "scenario.py"))]
OF_SITE = ("links.csv", "detectors.csv", "detectors.add.xml", *TABLES)


@functools.cache
def sum_of(file, stamp):
    """The checksum of a file, as it was at a stamp of time and size."""
    return hashlib.sha256(Path(file).read_bytes()).hexdigest()


def file_sum(file):
    """The checksum of a file's bytes."""
    state = Path(file).stat()
    return sum_of(str(file), (state.st_mtime_ns, state.st_size))


@functools.cache
def sumo_version():
    """What SUMO says of its version; nothing where it isn't there."""
    try:
        said = subprocess.run(["sumo", "--version"], capture_output=True, text=True).stdout
    except OSError:
        return ""
    return said.splitlines()[0] if said else ""


def files_of_sites(control, program, sites):
    """The files of the sites that a control reads; a folder that isn't there is none."""
    names = (f"{control}.add.xml",) if control in ("actuated", "delay_based") else () if control == "static" else (
        program, *OF_SITE)
    return [folder / name for _, folder in sites_of(sites) for name in names]


def run_sum(files, words):
    """The checksum of all files and words of a run. A file that isn't there counts as such."""
    parts = [[str(file), file_sum(file) if Path(file).exists() else "none"] for file in [*files, *OWN]]
    # a file counts by its bytes, and by its place in the list: not by its name, so that a study may be moved
    text = json.dumps([[part[1] for part in parts], words, sumo_version()], sort_keys=True)
    return hashlib.sha256(text.encode()).hexdigest()[:24]
