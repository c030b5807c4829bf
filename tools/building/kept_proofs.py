#!/usr/bin/env python3
"""tools/building/kept_proofs.py KIT REPOSITORY OUT NAME..

Copies programs, and the static library junction_c, that `rt ci` has proved on this machine from these very sources to the
folder OUT, and proves nothing but junction_c itself, of which `rt ci` keeps that it was proved and not what it is compiled to.
Status 3 and the crates that lack where it has not kept all; then nothing is copied.

It asks the kit's own `rt` for what a run has kept: the name of an entry is the sum of all that its proof read, and each of its
files is compared with its sum."""
import importlib.machinery
import importlib.util
import os
import shutil
import sys
import tempfile

NOT_KEPT = 3


def module_of(kit, name):
    loader = importlib.machinery.SourceFileLoader(name, f"{kit}/bin/{name}")
    module = importlib.util.module_from_spec(importlib.util.spec_from_loader(name, loader))
    sys.modules[name] = module
    loader.exec_module(module)
    return module


def take_libraries(rt, crates):
    """Gives each crate what was kept of it, lowest first; answers those of which nothing was."""
    kept, lacking = rt.Kept(crates), []
    if not kept.at:
        return [crate.name for crate in crates]
    for crate in crates:
        if any(below.name in lacking for below in crate.below()):
            lacking.append(crate.name)
            continue
        os.makedirs(f"{crate.folder}/out", exist_ok=True)
        if kept.give(crate, False, kept.key(crate)):
            kept.is_built(crate)
        else:
            lacking.append(crate.name)
    return lacking


def archive_of(rt, crate):
    """Compiles a static library, which proves it once more; answers its place, or None."""
    words = crate.words(["--jobs", "1"], keeps=False)
    made = f"out/lib{crate.name}.a"
    status = crate.prove(["build", *words, "--toolchain", f"{rt.KIT}/toolchain", "--backend", "llvm", "-o", made])
    return f"{crate.folder}/{made}" if not status and os.path.isfile(f"{crate.folder}/{made}") else None


def take(rt, repository, out, names):
    """Works in a copy, as `rt ci NAME` does, so that nothing of the repository's own out/ folders is touched."""
    with tempfile.TemporaryDirectory(prefix="kept-proofs-") as room:
        rt.copy_crates(repository, f"{room}/repository")
        os.mkdir(f"{room}/repository/.git")
        os.chdir(f"{room}/repository")
        rt.Crate.cuts_libraries = True
        rt.rtlib.guarded()
        rt.Crate.allowed = rt.handles_of(os.getcwd())
        every = rt.crates_of(os.getcwd())
        unknown = {*names} - {crate.name for crate in every}
        if unknown:
            print(f"crates.txt has no crate {' '.join(sorted(unknown))}", file=sys.stderr)
            return 2
        wanted = {below for crate in every if crate.name in names for below in [crate, *crate.below()]}
        crates = [crate for crate in every if crate in wanted]
        lacking = take_libraries(rt, crates)
        if lacking:
            print(*lacking, sep="\n")
            return NOT_KEPT
        for crate in crates:
            if crate.name in names:
                made = archive_of(rt, crate) if crate.is_static else f"{crate.folder}/out/{crate.name}"
                if not made:
                    return 1
                shutil.copy(made, out)
        os.chdir(out)
    return 0


def main(words):
    if words == ["--help"] or len(words) < 4:
        print(__doc__)
        return 0 if words == ["--help"] else 2
    kit, repository, out = map(os.path.abspath, words[:3])
    return take(module_of(kit, "rt"), repository, out, words[3:])


if __name__ == "__main__":
    sys.exit(main(sys.argv[1:]))
