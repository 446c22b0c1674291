"""`tape` and `text`: tables of moves and programs in RS-274 text to tapes."""
import codecs
import subprocess
import unittest

from support import MACHINE, POCKET, PROGRAMS, ROOT, TAPES, InFolder
import fullerecru


class Tables(InFolder):
    def test_round(self):
        for path in TAPES:
            with self.subTest(tape=path.name):
                table = self.made("tape", "--back", path)
                self.assertEqual(self.made("tape", path, self.file("t.csv", table)), path.read_bytes())

    def test_edges_round(self):
        blocks = [
            fullerecru.Block(-1_000_000, 1, -1, 1, 10_000_000, 2_097_151),
            fullerecru.Block(0, 0, 999_999, 1_000_000, 1, 0),
        ]
        tape = fullerecru.write_tape(fullerecru.read_limits(POCKET.read_bytes()), blocks)
        table = self.made("tape", "--back", self.file("edges.tape", tape))
        self.assertIn(b"-1000,0.001,-0.001,0.001,10000,2097151\n", table)
        self.assertEqual(self.made("tape", POCKET, self.file("t.csv", table)), tape)

    def test_columns_left_out(self):
        text = "\ufefffeed, x,y,z\r\n20,1,0,0\r\n\r\n20,0,1.000,0\r\n"
        tape = self.made("tape", MACHINE, self.file("t.csv", text))
        told = [fullerecru.read_record(tape[first:]) for first in (24, 40)]
        pair = [fullerecru.Block(1000, 0, 0, 20_000, 0, 1), fullerecru.Block(0, 1000, 0, 20_000, 0, 2)]
        self.assertEqual(told, pair)
        self.assertEqual(len(tape), 56)

    def test_sorts_of_limits(self):
        moves = ROOT / "examples" / "moves" / "frame.csv"
        tape = self.made("tape", MACHINE, moves)
        self.assertEqual(fullerecru.Report().add(tape).blocks, 9)
        for name, data in (("bytes", tape[:24]), ("tape", tape)):
            self.assertEqual(self.made("tape", self.file(name, data), moves), tape)
        marks = [fullerecru.read_record(tape[24 + 16 * k :]).mark for k in range(9)]
        self.assertEqual(marks, [1, 2, 3, 4, 5, 6, 7, 100, 9])

    def test_no_moves(self):
        out = self.folder / "out"
        for words in (("tape", MACHINE, self.file("t.csv", "x,y,z,feed\n")), ("text", MACHINE, self.file("p.ngc", "\n"))):
            status, said = self.called(*words, "-o", out)
            self.assertEqual((status, out.stat().st_size), (0, 24))
            self.assertIn("no block, so the tape has limits alone", said)

    def test_blank_lines(self):
        moves = "x,y,z,feed\n\n1,0,0,20\n   \n0,1,0,20\n"
        self.assertEqual(len(self.made("tape", MACHINE, self.file("t.csv", moves))), 24 + 32)

    def test_too_many(self):
        moves = self.file("t.csv", "x,y,z,feed\n" + "1,0,0,20\n" * 2049)
        said = self.fault("tape", MACHINE, moves)
        self.assertIn("t.csv:2050: refused by 10 (many): more than 2,048 blocks", said)


class TableFaults(InFolder):
    def said(self, text):
        return self.fault("tape", MACHINE, self.file("t.csv", text))

    def test_lines(self):
        head = "x,y,z,feed,radius,mark\n1,0,0,20,,\n"
        faults = [
            ("0,0,0,20,,", "refused by 2 (still)"),
            ("1000.001,0,0,20,,", "refused by 3 (long)"),
            ("1,0,0,0,,", "refused by 4 (feed)"),
            ("1,0,0,20,10000.001,", "refused by 5 (radius)"),
            ("1,0,0,20,,2097152", "refused by 6 (mark)"),
            ("1.0005,0,0,20,,", "x: 1.0005 is not a whole number of µm"),
            ("1,0,0,20.0001,,", "feed: 20.0001 is not a whole number of µm/s"),
            ("1,0,0,20,,1.5", "mark: 1.5 is not a whole number"),
            ("1,,0,20,,", "y: '' is no number"),
            ("1,0,one,20,,", "z: 'one' is no number"),
            ("1,0,0,-20,,", "feed: -20 is below 0"),
            ("1,0,0,20,-1,", "radius: -1 is below 0"),
            ("1,0,0,20", "4 values for 6 columns"),
            ('1,0,0,20,"', "unexpected end"),
        ]
        for line, why in faults:
            said = self.said(head + "\n" + line)
            self.assertIn("t.csv:4: ", said)
            self.assertIn(why, said)

    def test_header(self):
        faults = [
            ("", "empty"),
            ("x,y,z\n", "no column feed"),
            ("x,y,z,feed,speed\n", "unknown column 'speed'"),
            ("x,y,z,feed,x\n", "column x stands twice"),
            ("1,0,0,20\n", "unknown column '1'"),
        ]
        for text, why in faults:
            said = self.said(text)
            self.assertIn("t.csv:1: ", said)
            self.assertIn(why, said)

    def test_many(self):
        self.assertIn("refused by 10 (many)", self.said("x,y,z,feed\n" + "1,0,0,20\n" * 2_049))

    def test_limits(self):
        moves = ROOT / "examples" / "moves" / "frame.csv"
        cut = self.file("cut", POCKET.read_bytes()[:23])
        self.assertIn("cut: refused by 9 (ragged)", self.fault("tape", cut, moves))
        text = self.file("m.limits", "tick = 4 ms\n")
        self.assertIn("m.limits:1: the text ends without", self.fault("tape", text, moves))

    def test_back(self):
        spoiled = self.file("s.tape", POCKET.read_bytes() + bytes(16))
        self.assertIn("s.tape: record 21: refused by 2 (still)", self.fault("tape", "--back", spoiled))
        ragged = self.file("r.tape", POCKET.read_bytes() + b"1")
        self.assertIn("r.tape: refused by 9 (ragged)", self.fault("tape", "--back", ragged))


class Texts(InFolder):
    def test_examples(self):
        if not (PROGRAMS / "ngctape").is_file():
            self.skipTest("target/bin/ngctape is not built (make programs)")
        for path in sorted((ROOT / "examples" / "text").glob("*.ngc")):
            with path.open("rb") as text:
                made = subprocess.run([PROGRAMS / "ngctape", POCKET], stdin=text, check=True,
                                      stdout=subprocess.PIPE).stdout
            self.assertEqual(self.made("text", POCKET, path), made)
            limits = self.file("pocket.limits", self.made("limits", "--back", POCKET))
            self.assertEqual(self.made("text", limits, path), made)

    def test_refused(self):
        text = self.file("p.ngc", "F60\nX1\nY\t2\nM3\n")
        said = self.fault("text", MACHINE, text)
        meaning = fullerecru.Refusal.NUMBER.meaning
        self.assertIn(f"p.ngc:3: refused by 13 (number): {meaning}\n    Y\\t2\n", said)
        text = self.file("p.ngc", b"F60\nX1\xff\n")
        self.assertIn("p.ngc:2: refused by 12 (word)", self.fault("text", MACHINE, text))

    def test_line_ends_of_other_systems(self):
        text = "F60\nX1\nY2\n"
        plain = self.made("text", MACHINE, self.file("p.ngc", text))
        other = codecs.BOM_UTF8 + text.replace("\n", "\r\n").encode()
        self.assertEqual(self.made("text", MACHINE, self.file("q.ngc", other)), plain)

    def test_files(self):
        none = self.folder / "none"
        self.assertIn("none: No such file", self.fault("text", MACHINE, none))
        self.assertIn("none: No such file", self.fault("text", none, self.file("p.ngc", "")))


if __name__ == "__main__":
    unittest.main()
