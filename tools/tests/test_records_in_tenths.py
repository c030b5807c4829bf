"""Tests of the scripts that make records in tenths: each case is a file, the words of the call, what is written, and a part of
what is told. tools/test.py runs them."""
import subprocess
import sys
import tempfile
import unittest
from pathlib import Path

__all__ = ["FromChanges", "FromEventsInTenths", "FieldRecords"]

HERE = Path(__file__).resolve().parent.parent
RECORDS = HERE / "records"
HEAD = "VAPRECORD 1 "

# what the case shows, the file, its code, the words, the record behind its first words (None: refused), a part of what is told
CHANGES = [
    ("german dates, a comma, latin-1", "Zeit;SG;Bild\r\n12.05.2026 07:00:00,0;K1;ROT\r\n12.05.2026 07:00:01,5;K1;ROTGELB\r\n"
     "12.05.2026 07:00:02,5;K1;GRÜN\r\n", "latin-1", [], "K1\n0.0|R\n1.5|U\n2.5|G\n2.6|-", "read as ISO 8859-1"),
    ("UTF-16, as spreadsheets write it", "Zeit\tSG\tBild\r\n0\tK1\tROT\r\n1\tK1\tGRÜN\r\n", "utf-16", [], "K1\n0.0|R\n1.0|G\n1.1|-", ""),
    ("ISO with a zone, utf-8, a tab", "2026-05-12T07:00:00.04+02:00\tK1\tgrün\n2026-05-12T05:00:03.05Z\tK1\tGelb\n"
     "2026-05-12T05:00:06.06Z\tK1\trot\n", "utf-8", [], "K1\n0.0|G\n3.1|A\n6.1|R\n6.2|-", "rounded to the nearest tenth: 3 of 3"),
    ("commas and english words", "time,group,aspect\n0.0,N,red\n1.0,N,Red/Amber\n2,N,green\n\"6,5\",N,yellow\n9.5,N,red\n", "utf-8", [],
     "N\n0.0|R\n1.0|U\n2.0|G\n6.5|A\n9.5|R\n9.6|-", "0.0 is 00:00:00.0"),
    ("letters", "0;K1;R\n1;K1;U\n2;K1;G\n7;K1;A\n10;K1;R\n", "utf-8", [], "K1\n0.0|R\n1.0|U\n2.0|G\n7.0|A\n10.0|R\n10.1|-", ""),
    ("letters of another kind", "0;K1;r\n2;K1;g\n7;K1;Y\n10;K1;r\n", "utf-8", [], "K1\n0.0|R\n2.0|G\n7.0|A\n10.0|R\n10.1|-", ""),
    ("short words", "0;K1;ro\n1;K1;rg\n2;K1;gr\n7;K1;ge\n10;K1;ro\n", "utf-8", [], "K1\n0.0|R\n1.0|U\n2.0|G\n7.0|A\n10.0|R\n10.1|-", ""),
    ("a letter that may mean either", "0;K1;ROT\n1;K1;GN\n7;K1;G\n", "utf-8", [], None,
     "FILE:3: 'G' beside 'gn' may mean green or amber: --aspects says which"),
    ("columns by their names, in any case", "BILD;Bemerkung;sg;ZEIT\nROT;;K1;0,0\nGRÜN;von Hand;K1;2,0\n", "utf-8", [],
     "K1\n0.0|R\n2.0|G\n2.1|-", ""),
    ("day and time by their names", "SG;Datum;Uhrzeit;Signalbild;x\nK1;12.05.2026;07:00:00;rot;1\nK1;12.05.2026;07:00:02;gruen;1\n",
     "utf-8", [], "K1\n0.0|R\n2.0|G\n2.1|-", "0.0 is 2026-05-12 07:00:00.0"),
    ("columns by given names", "wann;was;wer\n0;ROT;K1\n2;GRÜN;K1\n", "utf-8", ["--columns", "Wann,Wer,Was"], "K1\n0.0|R\n2.0|G\n2.1|-", ""),
    ("a given name that isn't there", "wann;was;wer\n0;ROT;K1\n", "utf-8", ["--columns", "wann,wer,wie"], None,
     "FILE:1: the first line has the column wie 0 times"),
    ("names that aren't known", "a;b;c\n0;K1;ROT\n2;K1;GRÜN\n", "utf-8", [], "K1\n0.0|R\n2.0|G\n2.1|-", "no name of the first line is known"),
    ("some names that aren't known", "Zeit;b;Bild\n0;K1;ROT\n", "utf-8", [], None,
     "FILE:1: no columns of the first line are known as that of the group: --columns"),
    ("day and time in two fields", "12.05.2026;07:00:00;K1;rot\n12.05.26;07:00:02;K1;gruen;\n", "utf-8", [], "K1\n0.0|R\n2.0|G\n2.1|-",
     "2026-05-12 07:00:00.0"),
    ("across midnight", "23:59:58.5;K1;rot\n00:00:01.5;K1;grün\n", "utf-8", [], "K1\n0.0|R\n3.0|G\n3.1|-", "line 2: the next day begins"),
    ("afternoon", "05/12/2026 11:59:59 AM;K1;rot\n05/12/2026 12:00:01 PM;K1;grün\n", "utf-8", [], "K1\n0.0|R\n2.0|G\n2.1|-", ""),
    ("times of two kinds", "07:00:00;K1;rot\n25201;K1;grün\n", "utf-8", [], None, "FILE:2: a time with seconds, and with clock in the lines above"),
    ("what was before", "0.0;K1;ROT\n1.0;F1;GRÜN\n4.0;K2;GELB\n7.0;K2;ROT\n8.0;F1;ROT\n", "utf-8", [],
     "K1 F1 K2\n0.0|RRG\n1.0|RGG\n4.0|RGA\n7.0|RGR\n8.0|RRR\n8.1|-", ""),
    ("what was before a first red isn't known", "0.0;K1;ROT\n3.0;F1;ROT\n4.0;F1;GRÜN\n", "utf-8", [],
     "K1 F1\n0.0|?\n3.0|RR\n4.0|RG\n4.1|-", "not known: 3.0 of 4.1 s"),
    ("dark", "0.0;K1;ROT\n5.0;K1;DUNKEL\n9.0;K1;GELB-BLINKEN\n12.0;K1;ROT\n", "utf-8", [], "K1\n0.0|R\n5.0|?\n12.0|R\n12.1|-",
     "not known: 7.0 of 12.1 s"),
    ("others are passed over and counted", "0.0;K1;ROT\n1.0;B1;DUNKEL\n2.0;K1;GRÜN\n", "utf-8", ["--groups", "K1"],
     "K1\n0.0|R\n2.0|G\n2.1|-", "passed over: 1 lines of B1"),
    ("groups in other letters", "0.0;k1;ROT\n2.0;K1;GRÜN\n", "utf-8", ["--groups", "K1"], "K1\n0.0|R\n2.0|G\n2.1|-", ""),
    ("told again", "0.0;K1;ROT\n1.0;K1;ROT\n2.0;K1;GRÜN\n", "utf-8", [], "K1\n0.0|R\n2.0|G\n2.1|-", "told again: 1 of 3"),
    ("amber of no time", "0.0;F1;GRÜN\n5.0;F1;GELB\n5.0;F1;ROT\n", "utf-8", [], "F1\n0.0|G\n5.0|R\n5.1|-", ""),
    ("begin and end", "0.0;K1;ROT\n1.0;K1;GRÜN\n6.0;K1;ROT\n", "utf-8", ["--begin", "2.0", "--end", "8"], "K1\n0.0|G\n4.0|R\n6.0|-",
     "0.0 is 00:00:02.0"),
    ("times of the day", "12.05.2026 07:00:00,0;K1;ROT\n12.05.2026 07:00:02,5;K1;GRÜN\n", "utf-8", ["--clock"],
     "K1\n25200.0|R\n25202.5|G\n25202.6|-", "25200.0 is 2026-05-12 07:00:00.0; the record has 2.6 s"),
    ("nothing is left", "0.0;K1;ROT\n1.0;K1;GRÜN\n", "utf-8", ["--begin", "5", "--end", "5"], None, "nothing is left between --begin and --end"),
    ("silence", "0.0;K1;ROT\n0.0;K2;GRÜN\n4.0;K2;GELB\n100.0;K1;GRÜN\n103.0;K2;ROT\n", "utf-8", ["--silence", "60"],
     "K1 K2\n0.0|RG\n4.0|RA\n4.1|?\n103.0|GR\n103.1|-", "not known: 98.9 of 103.1 s"),
    ("a step that no signal may make", "0.0;K1;GELB\n3.0;K1;GRÜN\n", "utf-8", [], "K1\n0.0|A\n3.0|G\n3.1|-", "line 2: K1 becomes green and is amber"),
    ("each line that can't be read", "0.0;K1;ROT\n12.05.26 07:00;K1;GRÜN\n1;K1;lila\n2;K1\n3;;ROT\n", "utf-8", [], None,
     "FILE:2: '12.05.26 07:00' is no time, as 12.05.2026 07:00:00,0, 2026-05-12 07:00:00.0, 05/12/2026 07:00:00.0, 07:00:00.0 or seconds\n"
     "FILE:3: 'lila' is no aspect: --aspects names it\nFILE:4: 2 fields, where time, group and aspect are wanted\n"
     "FILE:5: there is no group\n"),
    ("falls", "1.0;K1;ROT\n0.9;K1;GRÜN\n", "utf-8", [], None, "FILE:2: the time is before that of the line above"),
    ("too short", "0.0;K1;ROT\n1.01;K1;GRÜN\n1.04;K1;ROT\n", "utf-8", [], None,
     "FILE:3: K1 is green for so short a time, from line 2 on, that no tenth shows it"),
    ("no name", "0.0;3K;ROT\n1.0;3K;GRÜN\n", "utf-8", [], None, "FILE: '3K' is no name of a group"),
    ("no line", "Zeit;SG;Bild\n", "utf-8", [], None, "FILE:1: there is no line 'time;group;aspect'"),
    ("an empty file", "", "utf-8", [], None, "FILE:1: there is no line 'time;group;aspect'"),
    ("a group without a line", "0.0;K1;ROT\n", "utf-8", ["--groups", "K1,K2"], None, "FILE: K2 has no line, so what it showed isn't known"),
    ("a day that isn't", "31.02.2026 07:00:00;K1;ROT\n", "utf-8", [], None, "FILE:1: '31.02.2026 07:00:00' is no time"),
    ("more than a week", "0.0;K1;ROT\n700000;K1;GRÜN\n", "utf-8", [], None, "FILE:2: the record has 700000.1 s, more than 604800.0"),
    ("by seconds", "0.0;K1;ROT\n1.6;K1;ROTGELB\n2.6;K1;GRÜN\n5.9;K1;GELB\n8.9;K1;ROT\n", "utf-8", ["--log"],
     "K1\n1|-|R|-|-|-\n2|-|U|-|-|-\n3|-|G|-|-|-\n4|-|G|-|-|-\n5|-|G|-|-|-\n6|-|A|-|-|-\n7|-|A|-|-|-\n8|-|A|-|-|-\n9|-|R|-|-|-", ""),
    ("by seconds, not known", "0.0;K1;ROT\n5.0;K1;AUS\n", "utf-8", ["--log"], None,
     "FILE: at 5.0 nothing is known, which a log by seconds can't say"),
    ("by seconds, too short", "0.0;K1;ROT\n5.1;K1;GRÜN\n5.3;K1;ROT\n", "utf-8", ["--log"], None,
     "FILE: K1 is green for so short a time, at 5.3, that no second shows it"),
]

EVENTS = [
    ("phases", "7,05/12/2026 07:00:00.0,82,3\n7,05/12/2026 07:00:01.2,1,2\n7,05/12/2026 07:00:06.2,7,2\n7,05/12/2026 07:00:06.2,8,2\n"
     "7,05/12/2026 07:00:09.7,9,2\n7,05/12/2026 07:00:09.7,10,2\n7,05/12/2026 07:00:11.2,11,2\n7,05/12/2026 07:00:11.2,12,2\n"
     "7,05/12/2026 07:00:12.0,81,3\n", [], "K2\n0.0|R\n1.2|G\n6.2|A\n9.7|R\n12.1|-", "passed over: 1 events of code 81, 1 events of code 82"),
    ("flashing", "0.0,1,1\n0.0,12,2\n9.0,173,4\n20.0,173,2\n25.0,1,2\n26.0,8,1\n29.0,10,1\n30.0,8,2\n", [],
     "K1 K2\n0.0|GR\n9.0|?\n26.0|AG\n29.0|RG\n30.0|RA\n30.1|-", "not known: 17.0 of 30.1 s"),
    ("a dark overlap", "0.0,61,1\n9.0,66,1\n15.0,65,1\n16.0,61,1\n", ["--map", "MAP:kind,number,name\noverlap,1,K1\n"],
     "K1\n0.0|G\n9.0|?\n15.0|R\n16.0|G\n16.1|-", "not known: 6.0"),
    ("a dark walk is none of the phase", "0.0,1,1\n9.0,24,1\n16.0,8,1\n", [], "K1\n0.0|G\n16.0|A\n16.1|-", "1 events of code 24"),
    ("power", "0.0,1,1\n9.0,182,0\n15.0,12,1\n16.0,1,1\n", [], "K1\n0.0|G\n9.0|?\n15.0|R\n16.0|G\n16.1|-", "not known: 6.0"),
    ("amber left out", "0.0,1,1\n9.0,10,1\n", [], "K1\n0.0|G\n9.0|R\n9.1|-", ""),
    ("amber to green", "0.0,8,1\n3.0,1,1\n", [], "K1\n0.0|A\n3.0|G\n3.1|-", "line 2: K1 becomes green and is amber"),
    ("by seconds", "0.0,1,1\n9.2,8,1\n12.7,10,1\n14.7,1,1\n", ["--log"],
     "K1\n" + "".join(f"{k}|-|{letter}|-|-|-\n" for k, letter in enumerate("GGGGGGGGGAAAAR", 1)) + "15|-|G|-|-|-", ""),
    ("groups of the table", "0.0,1,1\n9.0,10,1\n", ["--times", "MAP:Group,Min_green\nA,5\n"], None,
     "FILE: the table of times and the groups of the events differ in a, k1: --map names the events' signals"),
    ("no phase", "0.0,82,1\n", [], None, "FILE:1: there is no event of a phase"),
    ("falls", "1.0,1,1\n0.9,8,1\n", [], None, "FILE:2: the time is before that of the line above"),
    ("code", "1.0,300,1\n", [], None, "FILE:1: 300 is no event code"),
]


def run(script, data, options):
    """Status, output and what is told, of a script over a file with these bytes; a word `MAP:..` is a file with that text."""
    with tempfile.TemporaryDirectory() as folder:
        file, table = Path(folder, "in.csv"), Path(folder, "table.csv")
        file.write_bytes(data)
        words = []
        for word in options:
            if word.startswith("MAP:"):
                table.write_text(word[4:], encoding="utf-8")
            words.append(str(table) if word.startswith("MAP:") else word)
        done = subprocess.run([sys.executable, "-B", str(HERE / script), *words, str(file)], capture_output=True)
    return done.returncode, done.stdout.decode(), done.stderr.decode().replace(str(file), "FILE")


class Cases(unittest.TestCase):
    def judge(self, name, script, data, options, record, note):
        status, out, notes = run(script, data, options)
        head = "VAPLOG 1 " if "--log" in options else HEAD
        if record is None:
            self.assertEqual((status, out), (1, ""), f"{name}: {notes}")
        else:
            self.assertEqual((status, out), (0, head + record + "\n"), f"{name}: {notes}")
        self.assertIn(note, notes, name)
        self.assertNotIn("Traceback", notes, name)
        return out


class FromChanges(Cases):
    def test_cases(self):
        for name, text, code, options, record, note in CHANGES:
            with self.subTest(name):
                self.judge(name, "record_from_changes.py", text.encode(code), options, record, note)

    def test_words_of_a_table_and_other_names(self):
        with tempfile.TemporaryDirectory() as folder:
            Path(folder, "aspects.csv").write_text("Word,Aspect\nlila,red\nG,amber\nGN,green\n", encoding="utf-8")
            Path(folder, "map.csv").write_text("group,name\n3k,K3\n", encoding="utf-8")
            options = ["--aspects", f"{folder}/aspects.csv", "--map", f"{folder}/map.csv"]
            text = "0;3K;lila\n1;3K;gn\n7;3K;g\n10;3K;Lila\n"
            self.judge("words", "record_from_changes.py", text.encode(), options, "K3\n0.0|R\n1.0|G\n7.0|A\n10.0|R\n10.1|-", "")
            Path(folder, "aspects.csv").write_text("word,aspect\nlila,violet\n", encoding="utf-8")
            status, _, note = run("record_from_changes.py", text.encode(), options)
            self.assertEqual((status, note), (1, f"{folder}/aspects.csv:2: 'violet' is none of red, red-amber, green, amber, unknown\n"))

    def test_many_lines_that_cannot_be_read_are_counted(self):
        status, out, note = run("record_from_changes.py", b"0;K1;ROT\n" + b"x;K1;ROT\n" * 25, [])
        self.assertEqual((status, out, note.count("FILE:")), (1, "", 20))
        self.assertTrue(note.endswith("and 5 more lines that can't be read\n"))


class FromEventsInTenths(Cases):
    def test_cases(self):
        for name, text, options, record, note in EVENTS:
            with self.subTest(name):
                self.judge(name, "record_from_events.py", text.encode(), options, record, note)


class FieldRecords(Cases):
    """The two field records become the records that are judged, to the byte."""

    def test_german(self):
        data = (RECORDS / "german" / "changes.csv").read_bytes()
        record = (RECORDS / "german" / "record.txt").read_text(encoding="ascii")[len(HEAD):-1]
        self.judge("german", "record_from_changes.py", data, ["--times", str(RECORDS / "german" / "times.csv")], record,
                   "0.0 is 2026-05-12 07:00:00.0; the record has 1797.7 s and 374 lines")

    def test_events(self):
        data = (RECORDS / "events" / "events.csv").read_bytes()
        record = (RECORDS / "events" / "record.txt").read_text(encoding="ascii")[len(HEAD):-1]
        self.judge("events", "record_from_events.py", data, ["--begin", "05/12/2026 07:00:00"], record,
                   "not known: 0.1 of 1799.2 s, which nothing is judged of")


if __name__ == "__main__":
    unittest.main()
