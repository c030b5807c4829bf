#!/usr/bin/env python3
"""tools/try_fresh.py [--root FOLDER] [--keep]
tools/try_fresh.py --archive FILE [--suite NAME] [--root FOLDER] [--keep]

Runs, as root of a Debian, what a newcomer is told to run, in a fresh root of Debian made by debootstrap: the section `Try it`
of README with the Rattle kit in a clone of the last commit on Debian 12, in ten minutes at most; or docs/archive.md from an
archive of tools/release.py on Debian 11, or on the release that --suite names, in one minute at most. Each on two processors.

Of a page the indented blocks that begin with a command are run, and the fenced blocks `sh`, all in one shell, in their order.
Each command is told with its seconds of the clock and of a processor: where other work keeps the processors busy, the clock
tells more than the commands take. Lines that begin with apt-get are run before all others, and told and not counted. --root
takes a root that is there in the place of a new one; --keep leaves it."""
import argparse
import os
import re
import shutil
import signal
import subprocess
import sys
import tempfile
import time
from contextlib import ExitStack
from pathlib import Path

import check_pages
from building import lowering

TOP = lowering.TOP
MIRROR = "http://deb.debian.org/debian"
LIMITS = {"README.md": 600, "archive.md": 60}
PROCESSORS = ",".join(map(str, sorted(os.sched_getaffinity(0))[:2]))
HOME = "/home/newcomer"
# tells behind each command, in a file, that it ended well, when, and how much of a processor all have taken until then
TOLD = 'echo "$(date +%s.%N)" >> /tmp/told; times >> /tmp/told'
TIMES = re.compile(r"(\d+)m([\d.]+)s")


class Failed(Exception):
    """What didn't work."""


def section_of(text, title):
    """The part of a page below a heading; all of it without one."""
    if title is None:
        return text
    return text.split(f"\n## {title}\n", 1)[1].split("\n## ", 1)[0]


def lines_of(block):
    """The lines of a block, those that end with a backslash with the next one."""
    return [line + "\n" for line in re.split(r"(?<!\\)\n", block.rstrip("\n"))]


def commands_of(text):
    """The commands of a page, line by line: of the blocks that are fenced as `sh`, or indented and begin with a command."""
    found = []
    for part in re.finditer(r"^```(\w*)\n(.*?)^```$|((?:^    [^\n]*\n)+)", text, re.MULTILINE | re.DOTALL):
        if part[3]:
            block = re.sub(r"^    ", "", part[3], flags=re.MULTILINE)
            if check_pages.is_command(block.splitlines()):
                found += lines_of(block)
        elif part[1] == "sh":
            found += lines_of(part[2])
    return found


def script_of(commands, folder):
    """One shell that runs the commands one after the other, and ends where one ends otherwise than it is told."""
    lines = ["set -e -o pipefail", f"cd {folder}"]
    for command in commands:
        lines += [check_pages.command_of(command.rstrip("\n")), TOLD]
    return "\n".join(lines) + "\n"


def call(*words, **more):
    done = subprocess.run([str(word) for word in words], **more)
    if done.returncode:
        raise Failed(f"{' '.join(map(str, words[:6]))} ends with status {done.returncode}")


def inside(root, text, path="/usr/sbin:/usr/bin:/sbin:/bin", processors=None, out=None):
    """Runs the commands of a text in the root, as a shell's script; answers its status."""
    (root / "tmp" / "commands").write_text(text, encoding="utf-8")
    words = ["taskset", "-c", processors] if processors else []
    environment = {"PATH": path, "HOME": HOME, "LANG": "C.UTF-8", "DEBIAN_FRONTEND": "noninteractive"}
    environment |= {name: value for name, value in os.environ.items() if name.lower().endswith("_proxy")}
    words += ["chroot", root, "bash", "/tmp/commands"]
    return subprocess.run(words, env=environment, stdin=subprocess.DEVNULL, stdout=out).returncode


def mounted(stack, source, place, *options):
    """Shows a folder, or a file system of the kernel, in the root for as long as the script runs."""
    place.mkdir(parents=True, exist_ok=True)
    call("mount", *options, source, place)
    stack.callback(subprocess.run, ["umount", "-l", place])


def fresh_root(suite, root):
    """A Debian with nothing in it but what each has."""
    print(f"a fresh root of Debian, {suite}", flush=True)
    root.chmod(0o755)
    call("debootstrap", "--variant=minbase", suite, root, MIRROR, stdout=subprocess.DEVNULL)


def packages_of(commands):
    """The commands that install packages, and the others."""
    packages = [command for command in commands if command.startswith("apt-get")]
    return packages, [command for command in commands if command not in packages]


def ends_in(text):
    """Of each command that ended: when it did, and how many seconds of a processor all had taken until then."""
    lines = text.splitlines()
    whole = len(lines) - len(lines) % 3
    taken = lambda at: sum(int(part[0]) * 60 + float(part[1]) for part in TIMES.findall(" ".join(lines[at + 1 : at + 3])))
    return [(float(lines[at]), taken(at)) for at in range(0, whole, 3)]


def tell(commands, ends, begin):
    """Writes of each command that ended what it took."""
    clock, processor = begin, 0.0
    for command, (at, taken) in zip(commands, ends):
        print(f"{at - clock:7.1f} s {taken - processor:7.1f} s of a processor  {command.rstrip()[:90]}")
        clock, processor = at, taken


def install(root, packages):
    """Installs the packages that a page names."""
    if not packages:
        return
    begin = time.time()
    if inside(root, "".join(["set -e\napt-get -qq update\n", *packages]), out=subprocess.DEVNULL):
        raise Failed("the packages that the page names can't be installed")
    print(f"{time.time() - begin:7.1f} s, not counted: packages of Debian", flush=True)


def run_page(root, page, title, folder, path):
    """Runs the commands of a page; answers the seconds of the clock and of a processor that they took."""
    packages, commands = packages_of(commands_of(section_of(page.read_text(encoding="utf-8"), title)))
    if not commands:
        raise Failed(f"{page.name} has no command")
    install(root, packages)
    told = root / "tmp" / "told"
    told.unlink(missing_ok=True)
    begin = time.time()
    status = inside(root, script_of(commands, folder), path, PROCESSORS)
    ends = ends_in(told.read_text(encoding="utf-8")) if told.exists() else []
    tell(commands, ends, begin)
    if status or len(ends) < len(commands):
        raise Failed(f"status {status} at\n{commands[min(len(ends), len(commands) - 1)]}")
    return time.time() - begin, ends[-1][1]


def try_readme(root, stack):
    """README, with the kit, in a clone."""
    kit = lowering.kit().resolve()
    mounted(stack, kit, root / str(kit).lstrip("/"), "--bind", "-o", "ro")
    clone = root / HOME.lstrip("/") / "vantulig"
    clone.parent.mkdir(parents=True, exist_ok=True)
    begin = time.time()
    call("git", "clone", "-q", "--no-hardlinks", TOP, clone)
    cloned = time.time() - begin
    print(f"{cloned:7.1f} s  git clone", flush=True)
    path = f"/usr/local/sbin:/usr/local/bin:/usr/sbin:/usr/bin:/sbin:/bin:{kit}/bin"
    clock, processor = run_page(root, clone / "README.md", "Try it", f"{HOME}/vantulig", path)
    return cloned + clock, processor


def try_archive(root, archive):
    """docs/archive.md, as the archive has it."""
    place = root / HOME.lstrip("/")
    place.mkdir(parents=True, exist_ok=True)
    begin = time.time()
    call("tar", "-C", place, "-xzf", archive)
    unpacked = time.time() - begin
    print(f"{unpacked:7.1f} s  tar -xzf {archive.name}", flush=True)
    folder = next(place.glob("vantulig-*"))
    clock, processor = run_page(root, folder / "README.md", None, f"{HOME}/{folder.name}", "/usr/sbin:/usr/bin:/sbin:/bin")
    return unpacked + clock, processor


def main():
    parser = argparse.ArgumentParser(description=__doc__, formatter_class=argparse.RawDescriptionHelpFormatter)
    parser.add_argument("--archive", type=Path)
    parser.add_argument("--suite")
    parser.add_argument("--root", type=Path)
    parser.add_argument("--keep", action="store_true")
    words = parser.parse_args()
    if os.geteuid() or not shutil.which("debootstrap"):
        sys.exit("this wants to be root, and debootstrap (apt-get install debootstrap)")
    # so that what is mounted is unmounted then too
    signal.signal(signal.SIGTERM, lambda *_: sys.exit(143))
    room = words.root or Path(tempfile.mkdtemp(prefix="fresh-"))
    try:
        with ExitStack() as stack:
            if not words.root:
                fresh_root(words.suite or ("bullseye" if words.archive else "bookworm"), room)
            mounted(stack, "proc", room / "proc", "-t", "proc")
            mounted(stack, "/dev", room / "dev", "--bind")
            shutil.copy("/etc/resolv.conf", room / "etc" / "resolv.conf")
            clock, processor = try_archive(room, words.archive) if words.archive else try_readme(room, stack)
        limit = LIMITS["archive.md" if words.archive else "README.md"]
        print(f"{clock:7.1f} s {processor:7.1f} s of a processor, in all; {limit} s of the clock at most")
        return int(clock > limit)
    except (Failed, lowering.Refused) as failed:
        print(failed, file=sys.stderr)
        return 1
    finally:
        if words.keep or words.root:
            print(f"kept: {room}")
        elif not os.path.ismount(room / "proc") and not os.path.ismount(room / "dev"):
            shutil.rmtree(room)


if __name__ == "__main__":
    sys.exit(main())
