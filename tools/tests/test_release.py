"""Tests of tools/release.py, of the script that installs its archives, and of what they read of ELF files and wheels. tools/test.py takes
them in."""
import csv
import hashlib
import os
import shutil
import subprocess
import sys
import tarfile
import tempfile
import unittest
import zipfile
from pathlib import Path

HERE = Path(__file__).resolve().parent.parent
TOP = HERE.parent
sys.path.insert(0, str(HERE))
from building import elf
import install
from building import manylinux
import release

PROGRAM = """
#include <pthread.h>
#include <stdio.h>
static int words;
__attribute__((constructor)) static void take(int count, char **all) { words = count; (void)all; }
static void *tell(void *text) { printf("%s %d\\n", (char *)text, words); return 0; }
int main(void) { pthread_t t; pthread_create(&t, 0, tell, "told"); return pthread_join(t, 0); }
"""


class Folder(unittest.TestCase):
    def setUp(self):
        folder = tempfile.TemporaryDirectory()
        self.addCleanup(folder.cleanup)
        self.room = Path(folder.name)

    def write(self, place, text):
        (self.room / place).parent.mkdir(parents=True, exist_ok=True)
        (self.room / place).write_text(text, encoding="utf-8")
        return self.room / place

    def compiled(self, name, text, *flags):
        source = self.write(f"{name}.c", text)
        subprocess.run(["cc", "-o", self.room / name, source, *flags], check=True)
        return self.room / name


@unittest.skipUnless(shutil.which("cc") and shutil.which("readelf"), "there is no compiler")
class Elf(Folder):
    def readelf(self, option, file):
        return subprocess.run(["readelf", "-W", option, file], capture_output=True, text=True, check=True).stdout

    def test_what_is_read_is_what_readelf_reads(self):
        library = self.compiled("liba.so", "#include <string.h>\nvoid *a(void *t, void *f) { return memcpy(t, f, 99); }", "-shared", "-fPIC", "-lm", "-Wl,--no-as-needed", "-lpthread")
        for file in (library, self.compiled("p", PROGRAM)):
            read, told = elf.read(file), self.readelf("-d", file)
            self.assertEqual(read.needed(), [line.split("[")[1][:-1] for line in told.splitlines() if "(NEEDED)" in line])
            rows = [line.split() for line in self.readelf("--dyn-syms", file).splitlines() if " UND " in line]
            wanted = {row[7].split("@")[0]: row[7].partition("@")[2] or None for row in rows if len(row) > 7}
            self.assertEqual(read.asked(), wanted)

    def test_a_program_asks_for_less(self):
        program = self.compiled("p", PROGRAM, "-pie", "-Wl,-z,now")
        newest = max(elf.number_of(version) for version in elf.read(program).asked().values() if version)
        if newest <= release.NEWEST:
            self.skipTest("the C library here is an old one")
        before = program.read_bytes()
        program.write_bytes(release.for_older(program))
        read = elf.read(program)
        self.assertTrue(all(elf.number_of(version) <= release.NEWEST for version in read.asked().values() if version))
        self.assertIn("libpthread.so.0", read.needed())
        self.assertEqual(subprocess.run([program, "a", "b"], capture_output=True, text=True).stdout, "told 3\n")
        changed = sum(one != other for one, other in zip(before, program.read_bytes()))
        self.assertEqual(len(before), len(program.read_bytes()))
        self.assertLess(changed, 60)

    def test_a_program_asks_the_processor_itself(self):
        """As proved programs do at their start; with a bit that no processor has, it is told that there is none."""
        text = f"""#include <stdio.h>
            unsigned *{release.LEAF}(unsigned);
            int main(void) {{ printf("%x %x\\n", {release.LEAF}(0)[6] & 0x982201, {release.LEAF}(2)[6] & 1); return 0; }}"""
        program = self.compiled("p", text, "-pie", "-Wl,-z,now")
        if elf.read(program).asked().get(release.LEAF) != "GLIBC_2.33":
            self.skipTest("the C library here is another one")
        before, length = subprocess.run([program], capture_output=True, text=True).stdout, len(program.read_bytes())
        data = release.for_older(program)
        self.assertEqual(data[length:].lstrip(b"\0"), release.ANSWER.rstrip(b"\0") + bytes(32))
        lacking = data[:length] + data[length:].replace(bytes.fromhex("bb01229800"), bytes.fromhex("bb01229900"))
        for told, wanted in [(data, before), (lacking, "0 1\n")]:
            program.write_bytes(told)
            self.assertTrue(all(elf.number_of(it) <= release.NEWEST for it in elf.read(program).asked().values() if it))
            self.assertEqual(subprocess.run([program], capture_output=True, text=True).stdout, wanted)

    def test_other_symbols_are_refused(self):
        text = "#include <threads.h>\nint main(void) { mtx_t m; return mtx_init(&m, 0); }"
        program = self.compiled("p", text, "-pie", "-Wl,-z,now")
        if elf.read(program).asked().get("mtx_init") != "GLIBC_2.34":
            self.skipTest("the C library here is another one")
        with self.assertRaisesRegex(release.Refused, "p asks for mtx_init of a newer C library"):
            release.for_older(program)

    def test_what_is_no_elf(self):
        for text in ("", "#!/bin/sh\n"):
            with self.assertRaises(elf.NoElf):
                elf.read(self.write("script", text))


class Wheels(Folder):
    def test_tags(self):
        for version, tag in [
            ((2, 5), "manylinux_2_5_x86_64.manylinux1_x86_64"),
            ((2, 14), "manylinux_2_17_x86_64.manylinux2014_x86_64"),
            ((2, 17), "manylinux_2_17_x86_64.manylinux2014_x86_64"),
            ((2, 18), "manylinux_2_24_x86_64"),
            ((2, 33), "manylinux_2_34_x86_64"),
        ]:
            self.assertEqual(manylinux.tag_for(version), tag)
        with self.assertRaisesRegex(manylinux.Refused, "2.99"):
            manylinux.tag_for((2, 99))

    def wheel(self, library):
        place = self.room / "a-1-py3-none-linux_x86_64.whl"
        with zipfile.ZipFile(place, "w") as out:
            out.write(library, "a/liba.so")
            out.writestr("a-1.dist-info/WHEEL", "Wheel-Version: 1.0\nTag: py3-none-linux_x86_64\n")
            out.writestr("a-1.dist-info/RECORD", "a/liba.so,sha256=,1\n")
        return place

    @unittest.skipUnless(shutil.which("cc"), "there is no compiler")
    def test_a_wheel(self):
        library = self.compiled("liba.so", "#include <string.h>\nvoid *a(void *t, void *f) { return memcpy(t, f, 99); }", "-shared", "-fPIC")
        (self.room / "out").mkdir()
        made = manylinux.retagged(self.wheel(library), self.room / "out")
        self.assertEqual(made.name, "a-1-py3-none-manylinux_2_17_x86_64.manylinux2014_x86_64.whl")
        with zipfile.ZipFile(made) as read:
            tags = "Tag: py3-none-manylinux_2_17_x86_64\nTag: py3-none-manylinux2014_x86_64\n"
            self.assertEqual(read.read("a-1.dist-info/WHEEL").decode(), f"Wheel-Version: 1.0\n{tags}")
            self.assertEqual(read.read("a/liba.so"), library.read_bytes())
            rows = list(csv.reader(read.read("a-1.dist-info/RECORD").decode().splitlines()))
            self.assertEqual(rows[-1], ["a-1.dist-info/RECORD", "", ""])
            self.assertEqual([row[0] for row in rows[:-1]], ["a/liba.so", "a-1.dist-info/WHEEL"])
            self.assertEqual(rows[0], manylinux.row_of("a/liba.so", library.read_bytes()).split(","))

    @unittest.skipUnless(shutil.which("cc"), "there is no compiler")
    def test_a_library_of_ones_own_is_refused(self):
        self.compiled("libown.so", "int own(void) { return 7; }", "-shared", "-fPIC", "-Wl,-soname,libown.so")
        library = self.compiled("liba.so", "int own(void); int a(void) { return own(); }", "-shared", "-fPIC", f"-L{self.room}", "-lown")
        with self.assertRaisesRegex(manylinux.Refused, "liba.so needs libown.so"):
            manylinux.retagged(self.wheel(library), self.room)


class WhyNot(Folder):
    """What stands against an archive."""

    def build(self, **more):
        files = {f"bin/{name}": name for name in install.PROGRAMS} | {"lib/libjunction.a": "a", "include/junction.h": "h", "x.whl": "w"}
        for place, text in files.items():
            self.write(f"built/{place}", text)
        head = [*install.where_from(), *(f"# {place}: proved" for place in files)]
        sums = [f"{hashlib.sha256(text.encode()).hexdigest()}  {place}" for place, text in files.items()]
        self.write(f"built/{more.get('name', 'checksums.txt')}", "\n".join([*more.get("head", head), *sums]) + "\n")
        return self.room / "built"

    def test_reasons(self):
        built = self.build()
        is_clean = not any(words in install.where_from()[0] for words in ("with changes", "unknown"))
        clean = [] if is_clean else ["the checkout has changes that are not committed, or is no clone"]
        self.assertEqual(release.why_not(built, True), clean)
        self.write("built/bin/junction", "another")
        (built / "bin/log_report").unlink()
        reasons = ["bin/junction isn't what was built", "bin/log_report isn't what was built"]
        self.assertEqual(release.why_not(built, True), reasons + clean)
        built = self.build(head=["# commit 1234", "# kit 5678"])
        reasons = release.why_not(built, True)
        self.assertIn("bin/junction isn't known to come from a proof", reasons)
        self.assertTrue(any(reason.startswith("it was built of another state than the checkout has") for reason in reasons))

    def test_what_is_not_proved_needs_its_word(self):
        built = self.build(name="NOT-PROVED", head=["# NOT PROVED: nothing"])
        self.assertEqual(release.why_not(built, False), [])
        (built / "checksums.txt").unlink(missing_ok=True)
        with self.assertRaisesRegex(release.Refused, "has no list of what was built: tools/build.py --proved"):
            release.why_not(built, True)

    def test_the_same_files_make_the_same_archive(self):
        self.write("v/bin/p", "a program").chmod(0o755)
        (self.room / "v/lib").mkdir()
        (self.room / "v/lib/link").symlink_to("../bin/p")
        sums = []
        for name in ("one.tar.gz", "two.tar.gz"):
            os.utime(self.room / "v/bin/p", (len(sums), len(sums)))
            release.packed(self.room / "v", self.room / name, 7)
            sums.append(hashlib.sha256((self.room / name).read_bytes()).hexdigest())
        self.assertEqual(*sums)
        with tarfile.open(self.room / "one.tar.gz") as read:
            rows = [(item.name, item.mode, item.mtime, item.uname, item.linkname) for item in read.getmembers()]
        wanted = [("v", 0o755, 7), ("v/bin", 0o755, 7), ("v/bin/p", 0o755, 7), ("v/lib", 0o755, 7)]
        self.assertEqual([row[:3] for row in rows[:4]], wanted)
        self.assertEqual((rows[4][0], rows[4][4], rows[4][3]), ("v/lib/link", "../bin/p", "root"))


class Installing(Folder):
    """The script of an archive."""

    def setUp(self):
        super().setUp()
        files = {"bin/p": "a program", "lib/liba.so.1": "a library", "share/vantulig/x/y": "an example", "README.md": "a page", "wheel/w.whl": "w"}
        for place, text in files.items():
            self.write(f"archive/{place}", text)
        (self.room / "archive/lib/liba.so").symlink_to("liba.so.1")
        shutil.copy(HERE / "building" / "installing.sh", self.room / "archive/install.sh")
        sums = [f"{hashlib.sha256(text.encode()).hexdigest()}  {place}" for place, text in files.items()]
        self.write("archive/checksums-not-proved.txt", "\n".join(["# NOT PROVED: nothing", "# link lib/liba.so to liba.so.1", *sums]) + "\n")
        self.prefix = self.room / "prefix"

    def call(self, *words):
        done = subprocess.run(["sh", self.room / "archive/install.sh", *words], capture_output=True, text=True)
        return done.returncode, done.stdout, done.stderr

    def files(self):
        return {str(file.relative_to(self.prefix)) for file in self.prefix.rglob("*") if file.is_file() or file.is_symlink()}

    def test_there_and_back(self):
        status, said, fault = self.call(self.prefix)
        self.assertEqual((status, fault), (0, ""))
        self.assertTrue(said.endswith("NOT PROVED: nothing\n"))
        installed = {"bin/p", "lib/liba.so.1", "lib/liba.so", "share/vantulig/x/y", "share/vantulig/checksums-not-proved.txt"}
        self.assertEqual(self.files(), installed)
        done = subprocess.run(["sha256sum", "--quiet", "-c", "share/vantulig/checksums-not-proved.txt"], cwd=self.prefix)
        self.assertEqual(done.returncode, 0)
        self.assertEqual(self.call(self.prefix)[0], 1)
        self.assertEqual(self.call("--remove", self.prefix), (0, "", ""))
        self.assertFalse(self.prefix.exists() and any(self.prefix.iterdir()))
        self.assertEqual(self.call("--remove", self.prefix)[0], 1)

    def test_a_file_of_another_origin(self):
        self.write("prefix/bin/p", "mine")
        status, _, fault = self.call(self.prefix)
        self.assertEqual((status, fault), (1, f"{self.prefix}/bin/p is of another origin: nothing is installed\n"))
        self.assertEqual(self.files(), {"bin/p"})

    def test_an_archive_that_was_changed(self):
        self.write("archive/bin/p", "another")
        status, _, fault = self.call(self.prefix)
        self.assertEqual(status, 1)
        self.assertIn("the archive isn't whole: nothing is installed", fault)
        self.assertFalse(self.prefix.exists())

    def test_what_was_changed_since_stays(self):
        self.assertEqual(self.call(self.prefix)[0], 0)
        self.write("prefix/bin/p", "mine")
        status, _, fault = self.call("--remove", self.prefix)
        self.assertEqual((status, fault), (0, f"{self.prefix}/bin/p was changed since, and stays\n"))
        self.assertEqual(self.files(), {"bin/p"})

    def test_wrong_words(self):
        status, said, _ = self.call("--help")
        self.assertEqual(status, 2)
        self.assertTrue(said.startswith("install.sh [PREFIX] "))


if __name__ == "__main__":
    unittest.main()
