"""Tests of the completions of the programs, in tools/completion. tools/test.py takes them in."""
import re
import subprocess
import tempfile
import unittest
from pathlib import Path

HERE = Path(__file__).resolve().parent.parent
TOP = HERE.parent


class Completion(unittest.TestCase):
    """What bash offers behind some words."""

    CASES = [
        (["junction_trace", "values", "-"], ["--help"]),
        (["junction_trace", "lines", *"abcde", "--"], ["--csv", "--lcov", "--add"]),
        (["junction_trace", "values", *"abcde", "--f"], ["--from"]),
        (["junction_trace", "values", *"abcde", "--from", ""], []),
        (["junction_trace", "how-ended", *"abcde", ""], ["--csv"]),
        (["log_report", "sums", "-"], ["--help"]),
        (["log_report", "sums", "a", "--"], ["--each", "--serves", "--lost", "--csv"]),
        (["log_report", "sums", "a", "--each", ""], []),
        (["junction_trace", "lines", *"abcde", "--lcov", ""], ["--add"]),
        (["junction_trace", "lines", *"abcde", "--lcov", "--add", "f", ""], ["--add"]),
        (["log_report", "sums", "a", "--serves", "1:K1", "--"], ["--serves", "--lost", "--csv"]),
        (["log_report", "diagram", "a", "1", "9", "--s"], ["--site", "--strip"]),
        (["log_report", "diagram", "a", "1", "9", "--site", ""], ["a.pua"]),
        (["log_report", "diagram", "a", "1", "9", "--site", "p", ""], ["a.csv"]),
        (["log_report", "diagram", "a", "1", "9", "--site", "p", "t", ""], ["a.csv"]),
        (["log_report", "diagram", "a", "1", "9", "--site", *"pti", ""], ["--strip", "--title", "--begin"]),
        (["log_report", "diagram", "a", "1", "9", "--title", "t", ""], ["--begin"]),
        (["log_report", "breaches", *"abcd", "--a"], ["--amber-tolerance"]),
        (["log_report", "breaches", *"abcd", "--amber-tolerance", "1", "--"], ["--csv"]),
        (["log_report", "breaches", *"abcd", "--csv", ""], []),
        (["log_report", "breaches", *"abc", "--a"], ["--amber-tolerance"]),
        (["log_report", "protocol", *"abc", "--"], ["--csv"]),
        (["log_report", "protocol", *"abc", ""], ["a.csv"]),
        (["log_report", "breaches", "a", ""], ["a.pua"]),
        (["junction_check", "--j"], ["--json"]),
        (["junction_check", "--json", "--"], ["--allow"]),
        (["junction_check", "--json", ""], ["a.vap"]),
        (["junction_check", "--allow", ""], []),
        (["junction_check", "--allow", "w", ""], ["a.vap"]),
        (["junction_check", "--allow", "w", ":", "K1,K2", "a.vap", ""], ["a.pua"]),
        (["junction_check", "a.vap", "-"], []),
    ]
    FILES = ["a.vap", "a.pua", "a.csv"]

    def offered(self, words):
        script = 'source "$1"; shift; COMP_WORDS=("$@"); COMP_CWORD=$(($# - 1)); "_vantulig_$1"; echo "${COMPREPLY[@]}"'
        with tempfile.TemporaryDirectory() as folder:
            for name in self.FILES:
                (Path(folder) / name).touch()
            command = ["bash", "-c", script, "-", HERE / "completion" / "vantulig.bash", *words]
            done = subprocess.run(command, cwd=folder, capture_output=True, text=True)
        self.assertEqual(done.stderr, "", words)
        return done.stdout.split()

    def test_options(self):
        for words, wanted in self.CASES:
            self.assertEqual(self.offered(words), wanted, words)

    def test_each_option_of_each_form_is_offered(self):
        """The forms are those that the programs tell in FORM --help."""
        zsh = (HERE / "completion" / "_vantulig").read_text(encoding="utf-8")
        forms = []
        for name in ("report", "trace"):
            source = (TOP / "crates" / "form_help" / "src" / f"{name}.rt").read_text(encoding="utf-8")
            forms += re.findall(r'b"((?:log_report|junction_trace) [a-z-]+ [^"]*)"', source)
        self.assertEqual(len(forms), 12)
        for form in forms:
            program, word, *more = form.split("[")[0].split()
            options = re.findall(r"--[a-z-]+", form)
            self.assertEqual(self.offered([program, word, *more, ""] if options else [program, word]), options or [word], form)
            for option in options:
                self.assertIn(option, zsh)
            self.assertIn(word, self.offered([program, ""]))


if __name__ == "__main__":
    unittest.main()
