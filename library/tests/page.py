#!/usr/bin/env python3
"""page.py PAGE SITE BUILD PYTHON: runs each text in C, C++ and Python of a page as it is printed, in a folder with the files
of the site SITE, and compares what it prints with the block behind it. BUILD is the library's, PYTHON one that has the
package."""
import os
import re
import shutil
import subprocess
import sys
import tempfile
from pathlib import Path

TEXTS = re.compile(r"^```(c|cpp|python)\n(.*?)^```\n\n```text\n(.*?)^```$", re.M | re.S)
COMPILERS = {"c": ["cc", "-std=c11", "-Wall", "-Wextra", "-Werror"], "cpp": ["c++", "-std=c++17", "-Wall", "-Wextra", "-Werror"]}


def words_for(kind, text, folder, build, python):
    """The words that run a text, which is compiled before where that is needed."""
    file = folder / f"text.{kind}"
    file.write_text(text, encoding="utf-8")
    if kind == "python":
        return [python, file]
    lib, include = build / "lib", Path(__file__).resolve().parent.parent / "include"
    subprocess.run([*COMPILERS[kind], f"-I{include}", file, "-o", folder / "text", f"-L{lib}", "-ljunction", f"-Wl,-rpath,{lib}"],
                   check=True)
    return [folder / "text"]


def main(page, site, build, python):
    texts = TEXTS.findall(Path(page).read_text(encoding="utf-8"))
    for number, (kind, text, wanted) in enumerate(texts, 1):
        with tempfile.TemporaryDirectory() as name:
            folder = Path(name)
            for file in Path(site).iterdir():
                shutil.copy(file, folder)
            words = words_for(kind, text, folder, Path(build).resolve(), python)
            done = subprocess.run(words, cwd=folder, capture_output=True, text=True, env=os.environ)
            if (done.returncode, done.stdout, done.stderr) != (0, wanted, ""):
                print(f"WRONG: text {number} of {page} ({kind}): status {done.returncode}\n{done.stdout}{done.stderr}wanted\n{wanted}")
                return 1
    print(f"{len(texts)} texts of {page} run as printed")
    return 0 if texts else 1


if __name__ == "__main__":
    sys.exit(main(*sys.argv[1:]))
