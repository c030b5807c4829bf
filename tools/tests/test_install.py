"""Tests of tools/install.py; tools/test.py runs them."""
import hashlib
import os
import re
import shutil
import subprocess
import sys
import tempfile
import unittest
from pathlib import Path

__all__ = ["Install"]

HERE = Path(__file__).resolve().parent.parent
TOP = HERE.parent


class Install(unittest.TestCase):
    """tools/install.py in a checkout of its own, whose programs are scripts."""

    NAMES = ["junction", "junction_check", "junction_trace", "log_report"]

    def setUp(self):
        folder = tempfile.TemporaryDirectory()
        self.addCleanup(folder.cleanup)
        self.top, self.prefix = Path(folder.name) / "checkout", Path(folder.name) / "prefix"
        shutil.copytree(HERE / "completion", self.top / "tools" / "completion")
        shutil.copy(HERE / "install.py", self.top / "tools")
        shutil.copy(TOP / "crates.txt", self.top)
        (self.top / "docs").mkdir()
        for name in self.NAMES:
            shutil.copy(TOP / "docs" / f"{name}.1", self.top / "docs")
            source = self.top / "crates" / name / "src" / "main.rt"
            source.parent.mkdir(parents=True)
            source.write_text("// a source\n", encoding="utf-8")
            os.utime(source, (1, 1))
            self.built(name).parent.mkdir()
            self.built(name).write_text(f"#!/bin/sh\necho {name}\n", encoding="utf-8")
        self.built("junction_check").with_name("junction_check.by-rattle").touch()
        stamp = self.built("junction").with_name("junction.stamp")
        stamp.write_text("0" * 64 + hashlib.sha256(self.built("junction").read_bytes()).hexdigest(), encoding="utf-8")

    def built(self, name):
        return self.top / "crates" / name / "out" / name

    def call(self, *words):
        done = subprocess.run([sys.executable, "-B", self.top / "tools" / "install.py", *words], capture_output=True, text=True)
        return done.returncode, done.stdout, done.stderr

    def files(self):
        return {str(file.relative_to(self.prefix)) for file in self.prefix.rglob("*") if file.is_file()}

    def test_all_programs(self):
        status, said, fault = self.call(self.prefix)
        self.assertEqual((status, fault), (0, ""))
        pages = {f"share/man/man1/{name}.1" for name in self.NAMES}
        completions = {f"share/bash-completion/completions/{name}" for name in self.NAMES} | {"share/zsh/site-functions/_vantulig"}
        listed = {f"bin/{name}" for name in self.NAMES} | pages | completions
        self.assertEqual(self.files(), listed | {"share/vantulig/checksums.txt"})
        self.assertTrue(all(f"{self.prefix}/{place}\n" in said for place in self.files()))
        self.assertEqual(subprocess.run([self.prefix / "bin" / "log_report"], capture_output=True).stdout, b"log_report\n")
        text = (self.prefix / "share" / "vantulig" / "checksums.txt").read_text(encoding="utf-8")
        self.assertIn("# commit unknown, since this is no clone\n# kit ", text)
        stamped = "# bin/junction: as `rt run` left it after its proof\n"
        gated = "# bin/junction_check: as `rt ci` left it after its proof, with the other compiler's build beside it\n"
        unknown = "# bin/junction_trace: not known to come from a proof: no trace of one beside it\n"
        self.assertIn(stamped + gated + unknown + "# bin/log_report: not known to come from a proof: no trace of one beside it\n", text)
        sums = {line[66:]: line[:64] for line in text.splitlines() if not line.startswith("#")}
        self.assertEqual(sums, {place: hashlib.sha256((self.prefix / place).read_bytes()).hexdigest() for place in listed})

    def test_what_is_not_built_is_refused(self):
        self.built("log_report").unlink()
        os.utime(self.built("junction"), (0, 0))
        status, said, fault = self.call(self.prefix)
        self.assertEqual((status, said), (1, ""))
        older = "junction is older than crates/junction/src/main.rt: in crates/junction, `rt run -- --version` builds it anew"
        lacking = "log_report isn't built: in crates/log_report, `rt run -- --version` proves and builds it"
        self.assertEqual(fault, f"{older}\n{lacking}\nnothing is installed\n")
        self.assertFalse(self.prefix.exists())
        self.assertEqual(self.call(self.prefix, "junction_check")[0], 0)
        self.assertIn("bin/junction_check", self.files())
        self.assertNotIn("bin/junction", self.files())
        self.assertEqual(self.call(self.prefix, "juncton")[0], 1)

    def test_what_is_of_another_origin_stays(self):
        (self.prefix / "bin").mkdir(parents=True)
        (self.prefix / "bin" / "junction").write_text("mine", encoding="utf-8")
        status, said, fault = self.call(self.prefix)
        self.assertEqual((status, said, fault), (1, "", f"{self.prefix}/bin/junction is of another origin\nnothing is installed\n"))
        self.assertEqual(self.files(), {"bin/junction"})

    def test_everything_is_taken_away(self):
        self.assertEqual(self.call(self.prefix, "--remove")[0], 1)
        (self.prefix / "bin").mkdir(parents=True)
        (self.prefix / "bin" / "other").write_text("mine", encoding="utf-8")
        self.assertEqual(self.call(self.prefix)[0], 0)
        self.assertEqual(self.call(self.prefix, "junction")[0], 0)
        self.assertEqual(self.call(self.prefix, "--remove")[0], 0)
        self.assertEqual([str(path.relative_to(self.prefix)) for path in sorted(self.prefix.rglob("*"))], ["bin", "bin/other"])

    def test_a_new_prefix_is_taken_away(self):
        self.assertEqual(self.call(self.prefix)[0], 0)
        self.assertEqual(self.call(self.prefix, "--remove")[0], 0)
        self.assertFalse(self.prefix.exists())

    def test_what_was_changed_stays(self):
        self.assertEqual(self.call(self.prefix)[0], 0)
        (self.prefix / "bin" / "junction").write_text("mine", encoding="utf-8")
        status, _, fault = self.call(self.prefix, "--remove")
        self.assertEqual((status, fault), (1, f"{self.prefix}/bin/junction was changed since, and stays\n"))
        self.assertEqual(self.files(), {"bin/junction"})

    def test_checksums(self):
        status, said, _ = self.call("--checksums", "junction")
        self.assertEqual(status, 0)
        self.assertIn("# crates/junction/out/junction: as `rt run` left it after its proof\n", said)
        self.assertTrue(said.endswith("  crates/junction/out/junction\n"))
        self.assertEqual(self.call()[0], 1)

    def test_completion_knows_each_command(self):
        table = (TOP / "README.md").read_text(encoding="utf-8").split("\n## The programs\n")[1].split("\n## ")[0]
        rows = "".join(row.split("|")[1] for row in table.split("\n") if row.startswith("| `"))
        commands = {
            "junction": set(re.findall(r"`junction ([a-z]+)", rows)),
            "log_report": set(re.findall(r"(?:`|log_report )([a-z]+) LOG", rows)) | {"--help", "--version"},
        }
        for name, wanted in commands.items():
            text = f'source "$1"; COMP_WORDS=({name} ""); COMP_CWORD=1; _vantulig_{name}; echo "${{COMPREPLY[@]}}"'
            done = subprocess.run(["bash", "-c", text, "-", HERE / "completion" / "vantulig.bash"], capture_output=True, text=True)
            self.assertEqual((set(done.stdout.split()), done.stderr), (wanted, ""))
            zsh = (HERE / "completion" / "_vantulig").read_text(encoding="utf-8")
            self.assertTrue(all(re.search(rf"['( ]{word}[): ]", zsh) for word in wanted), name)


if __name__ == "__main__":
    unittest.main()
