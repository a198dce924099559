#!/usr/bin/env python3
"""Tests of words.py: what it makes of the source's example, and that what it shows is turned back into the same bytes."""

import os
import random
import re
import struct
import subprocess
import sys
import tempfile
import unittest

import document01
import words

ROOT = os.path.dirname(os.path.dirname(os.path.abspath(__file__)))
ALPHABET = "alphabet: a/0 b/0 c/0 d/0 f/2 g/1 h/1\n"
with open(os.path.join(ROOT, "examples", "source.txt")) as example:
    SOURCE = example.read()


def rule_words(text):
    return words.read_rule(words.read_alphabet("a/0 b/0 c/0 d/0 f/2 g/1 h/1"), text)


def random_postfix(chance, ranks, kind, length):
    """One tree of about this length: constants and symbols while trees are few, then whatever joins them."""
    found, trees = [], 0
    constants = [i for i, rank in enumerate(ranks) if rank == 0]
    while len(found) < length or trees != 1:
        fitting = [i for i, rank in enumerate(ranks) if 0 < rank <= trees]
        if fitting and (len(found) >= length or chance.random() < 0.6):
            symbol = chance.choice(fitting)
        elif len(found) >= length + 40:
            return None
        else:
            symbol = chance.choice(constants)
        trees += 1 - ranks[symbol]
        found.append(words.word(kind, symbol))
    return found


def random_rule(chance, depth):
    shape = chance.randrange(10) if depth else chance.randrange(3)
    part = lambda: random_rule(chance, depth - 1)
    c = chance.randrange(4)
    if shape == 0:
        return [words.word(words.EMPTY)]
    if shape == 1:
        return [words.word(words.ANYTHING)]
    if shape == 2:
        return [words.word(words.SYMBOL, c)]
    if shape == 3:
        return part() + part() + [words.word(words.SYMBOL, 4)]
    if shape == 4:
        return part() + [words.word(words.SYMBOL, 5)]
    if shape in (5, 6):
        return part() + part() + [words.word(words.UNION)]
    if shape in (7, 8):
        return part() + part() + [words.word(words.PRODUCT, c)]
    return part() + [words.word(words.CLOSURE, c)]


class Words(unittest.TestCase):
    def same_again(self, data):
        text = words.show(data)
        self.assertEqual(words.make(text), data, text)

    def test_source(self):
        with open(os.path.join(ROOT, "crates", "marklist", "stdin"), "rb") as file:
            self.assertEqual(words.make(SOURCE), file.read())

    def test_numbered_chapter(self):
        numbered = "chapter:\n 0: a\n 1: b\n 2: f(0,1)\n 3: d\n 4: g(3)\n 5: h(4)\n 6: f(2, 5)\n"
        self.assertEqual(words.make(SOURCE.split("chapter")[0] + numbered), words.make(SOURCE))

    def test_hexadecimal_words(self):
        text = ALPHABET + "rule: 0x20000003\nchapter: 0x70000003 # d\n"
        self.assertEqual(words.make(text), words.make(ALPHABET + "rule: d\nchapter: d\n"))

    def test_how_tightly_a_rule_binds(self):
        for text, bracketed in (
            ("a + b + c", "(a + b) + c"),
            ("a .c: b .d: c", "(a .c: b) .d: c"),
            ("a + b .c: d*a", "a + (b .c: (d*a))"),
            ("a*c*d", "(a*c)*d"),
            ("f(a + b, _)*c", "(f((a + b), (_)))*c"),
            ("? + ? .c: ?*c", "(?) + (? .c: (?*c))"),
        ):
            self.assertEqual(rule_words(text), rule_words(bracketed))
        self.assertNotEqual(rule_words("a + (b + c)"), rule_words("a + b + c"))
        self.assertNotEqual(rule_words("(a + b)*c"), rule_words("a + b*c"))

    def test_wrong_texts(self):
        for line in (
            "rule: e\nchapter: d", "rule: f(a)\nchapter: d", "rule: a b\nchapter: d", "rule: a .g: b\nchapter: d",
            "rule: a +\nchapter: d", "rule: (a\nchapter: d", "rule: ?(a)\nchapter: d", "rule: ??\nchapter: d", "rule: a\nchapter: ?",
            "rule: a\nchapter: f(a)", "rule: a\nchapter: a + b",
            "rule: a\nchapter:\n 0: a\n 2: g(0)", "rule: a\nchapter:\n 0: a\n 1: b\n 2: f(1,0)", "rule: a\nchapter:\n 0: a\n 1: b",
            "rule: a", "rule: a\nrule: a\nchapter: d", "rules: a\nchapter: d", "rule: 0x1ffffffff\nchapter: d",
            "rule: 0x20000003 20000003\nchapter: d", "rule: 0x2000_0003\nchapter: d",
        ):
            with self.assertRaises(words.Wrong, msg=line):
                words.make(ALPHABET + line + "\n")
        for line in ("counts: 7 9", "counts: 7 9 7 7", "counts: 7 9 x", "counts: 0x7 9 7", "counts: 7 9 -7", "counts: 7 9 4294967296"):
            with self.assertRaisesRegex(words.Wrong, "three decimal numbers", msg=line):
                words.make(SOURCE + line + "\n")
        for line in ("bytes: 0", "bytes: 0x0a", "bytes: zz"):
            with self.assertRaisesRegex(words.Wrong, "two hexadecimal digits", msg=line):
                words.make(SOURCE + line + "\n")

    def test_what_no_sections_give(self):
        self.assertEqual(words.make("bytes:\n"), b"")
        self.assertEqual(words.make("bytes: 07 00 00\n"), b"\7\0\0")
        self.assertEqual(words.make("counts: 7 9 7\n"), struct.pack("<3I", 7, 9, 7))
        self.assertEqual(words.make(SOURCE + "bytes: 0a 0b\n"), words.make(SOURCE) + b"\x0a\x0b")
        self.assertEqual(words.make(SOURCE + "counts: 7 9 8\n")[:12], struct.pack("<3I", 7, 9, 8))

    def test_forms(self):
        """Sections in any order, and the names s0, s1, .. where the alphabet is words."""
        lines = "".join(reversed(SOURCE.splitlines(keepends=True)))
        self.assertEqual(words.make(lines), words.make(SOURCE))
        text = "alphabet: 0x10000000 0x10000001\nrule: s1(s0)\nchapter: s0\n"
        self.assertEqual(words.make(text), words.make("alphabet: a/0 g/1\nrule: g(a)\nchapter: a\n"))

    def test_random_inputs(self):
        chance = random.Random(1)
        entries = [words.word(words.ENTRY, rank) for rank in (0, 0, 0, 0, 2, 1, 1)]
        whole = 0
        for _ in range(500):
            chapter = random_postfix(chance, (0, 0, 0, 0, 2, 1, 1), words.ELEMENT, chance.randrange(1, 60))
            if chapter is None:
                continue
            whole += 1
            rule = random_rule(chance, 5)
            numbers = [len(entries), len(rule), len(chapter)] + entries + rule + chapter
            data = struct.pack("<%dI" % len(numbers), *numbers)
            self.assertNotIn("0x", words.show(data))
            self.same_again(data)
            cut = data[:chance.randrange(len(data))]
            self.same_again(cut)
            self.same_again(data + bytes(chance.randrange(256) for _ in range(chance.randrange(1, 9))))
            at = chance.randrange(len(data))
            self.same_again(data[:at] + bytes([chance.randrange(256)]) + data[at + 1:])
            marked = [3 + symbol for symbol in range(len(entries)) if chance.random() < 0.3]
            self.same_again(struct.pack("<%dI" % len(numbers), *(w | words.HOLE * (i in marked) for i, w in enumerate(numbers))))
        self.assertGreater(whole, 400)

    def test_random_bytes(self):
        chance = random.Random(2)
        for _ in range(500):
            self.same_again(bytes(chance.randrange(256) for _ in range(chance.randrange(40))))
            few = [chance.randrange(4) for _ in range(3)] + [chance.choice((1, 2, 3, 4, 5, 6, 7, 14)) << 28 for _ in range(9)]
            self.same_again(struct.pack("<12I", *few))

    def test_names(self):
        data = words.make(SOURCE)
        names = ["a", "b", "c", "d", "f", "g", "h"]
        self.assertIn("rule: (f(a, b) + g(c) .c: d)*d\n", words.show(data, names))
        self.assertIn("  6: f(2,5)\n", words.show(data, names))
        printed = "nodes 7 states 29 hits 3\n2 4 3\n3 3 1\n4 5 2\n"
        self.assertEqual(
            words.hits(data, printed, names),
            "nodes 7 states 29 hits 3\n2 4 3  f(a, b)\n3 3 1  d\n4 5 2  g(d)\n",
        )
        self.assertEqual(words.hits(data, "refused 5\n", names), "refused 5\n")
        for wrong in (
            "", "nodes 7\n", "refused 5", printed[:-1], printed[:-6], printed + "4 5 2\n", printed.replace("\n", "\r\n"),
            printed.replace("4 5 2", "7 5 2"), printed.replace("4 5", "x 5"), printed.replace("nodes 7", "nodes 8"),
            printed.replace("4 5 2", "4 4 2"), printed.replace("4 5 2", "4 5 3"), printed.replace("4 5 2", "5 5 2"),
        ):
            with self.assertRaises(words.Wrong, msg=wrong):
                words.hits(data, wrong, names)

    def command(self, *arguments, data=b""):
        run = subprocess.run(
            [sys.executable, "-B", words.__file__] + list(arguments), input=data, stdout=subprocess.PIPE, stderr=subprocess.PIPE
        )
        return run.returncode, run.stdout, run.stderr.decode()

    def test_statuses(self):
        source = os.path.join(ROOT, "examples", "source.txt")
        data = words.make(SOURCE)
        self.assertEqual(self.command("make", source), (0, data, ""))
        self.assertEqual(self.command("make", data=SOURCE.encode()), (0, data, ""))
        status, written, said = self.command("make", "-", data=b"rule: a\n")
        self.assertEqual((status, written, said.count("\n")), (1, b"", 1))
        for wrong in ([], ["mak"], ["make", "a", "b"], ["hits", "a"], ["hits"]):
            self.assertEqual(self.command(*wrong)[:2], (2, b""), wrong)

    def test_texts_without_names(self):
        with tempfile.TemporaryDirectory() as folder:
            for text in ("alphabet: 0x10000000\nrule: s0\nchapter: s0\n", "bytes: 00\n"):
                file = os.path.join(folder, "text")
                with open(file, "w") as out:
                    out.write(text)
                status, written, said = self.command("show", "-", file, data=words.make(SOURCE))
                self.assertEqual((status, written), (1, b""))
                self.assertEqual(said, "words.py: %s: this text's alphabet has no names\n" % file)

    def test_output_that_nobody_reads(self):
        reader, writer = os.pipe()
        os.close(reader)
        command = [sys.executable, "-B", words.__file__, "make", os.path.join(ROOT, "examples", "source.txt")]
        run = subprocess.run(command, stdout=writer, stderr=subprocess.PIPE)
        os.close(writer)
        self.assertEqual((run.returncode, run.stderr), (141, b""))

    def test_comb(self):
        above = document01.MOST_ELEMENTS - 1
        text = "alphabet: a/0 g/1\nrule: a\nchapter: " + "g(" * above + "a" + ")" * above + "\n"
        self.assertEqual(len(words.make(text)), 12 + 4 * (2 + 1 + above + 1))

    def test_too_high(self):
        """A chapter that is refused with 24 is made and shown as any other."""
        above = document01.MOST_HEIGHT
        data = words.make("alphabet: a/0 g/1\nrule: a\nchapter: " + "g(" * above + "a" + ")" * above + "\n")
        self.assertIn("\n  %d: s1(%d)\n" % (above, above - 1), words.show(data))
        self.same_again(data)
        self.assertEqual(words.hits(data, "refused 24\n"), "refused 24\n")

    def test_holes(self):
        """They are named as any constant, in a chapter too, which is refused with 26."""
        data = words.make("alphabet: a/0 x/hole y/hole f/2\nrule: f(x, y)*y .x: a + x\nchapter: f(a, x)\n")
        self.assertEqual(struct.unpack("<4I", data[12:28]), (0x10000000, 0x10000100, 0x10000100, 0x10000002))
        self.assertEqual(words.show(data, ["a", "x", "y", "f"]), "alphabet: a/0 x/hole y/hole f/2\nrule: f(x, y)*y .x: a + x\n"
                         "chapter:\n  0: a\n  1: x\n  2: f(0,1)\n")
        self.same_again(data)
        self.assertEqual(words.hits(data, "refused 26\n"), "refused 26\n")

    def test_what_is_over_no_hole(self):
        """Where the alphabet has a hole, a product or closure over another constant stands in words alone."""
        for rule in ("f(a, x)*a", "f(a, x) .a: x", "f(a, x)*f"):
            with self.assertRaisesRegex(words.Wrong, "rule: no hole: [af]", msg=rule):
                words.make("alphabet: a/0 x/hole f/2\nrule: %s\nchapter: a\n" % rule)
        data = words.make("alphabet: a/0 x/hole\nrule: 0x20000001 0x60000000\nchapter: a\n")
        self.assertIn("alphabet: s0/0 s1/hole\nrule: 0x20000001 0x60000000\n", words.show(data))
        self.same_again(data)

    def test_marks_of_no_hole(self):
        """With a rank above 0 the mark makes no entry."""
        for text in ("a/0 g/hole1", "a/0 g/1hole", "a/0 g/Hole", "a/0 g/256"):
            with self.assertRaisesRegex(words.Wrong, "NAME/hole", msg=text):
                words.make("alphabet: %s\nrule: a\nchapter: a\n" % text)
        data = words.make("alphabet: 0x10000000 0x10000101\nrule: 0x20000000\nchapter: 0x70000000\n")
        self.assertIn("alphabet: 0x10000000 0x10000101\n", words.show(data))
        self.same_again(data)

    def test_anything(self):
        """Written `?`, it takes no parts. Where the word has another bit, it is no rule word, which is refused with 4."""
        rule = "f(?, ? .c: a + ?*c)"
        data = words.make(ALPHABET + "rule: %s\nchapter: a\n" % rule)
        anything = 0xE0000000
        self.assertEqual(struct.unpack("<8I", data[40:72]), (
            anything, anything, 0x20000000, 0x50000002, anything, 0x60000002, 0x40000000, 0x20000004))
        self.assertIn("\nrule: %s\n" % rule, words.show(data, ["a", "b", "c", "d", "f", "g", "h"]))
        self.same_again(data)
        self.assertEqual(words.hits(data, "refused 25\n"), "refused 25\n")
        for bit in (0, 7, 8, 27):
            line = "rule: 0x%08x\n" % (anything | 1 << bit)
            wrong = words.make("alphabet: a/0\n" + line + "chapter: a\n")
            self.assertIn(line, words.show(wrong))
            self.same_again(wrong)

    def test_limits(self):
        """The limits are those of the C header, which also has the largest table of a rule without `?`; so are the mark of a hole and
        the word of `?`."""
        with open(os.path.join(ROOT, "include", "haqbylur.h")) as file:
            header = file.read()
        stated = dict(re.findall(r"^#define HAQBYLUR_(MOST_\w+) (\d+)u$", header, re.M))
        del stated["MOST_COMPILED_WORDS"]
        own = {name: str(value) for name, value in vars(document01).items() if name.startswith("MOST_")}
        self.assertEqual(own, stated)
        self.assertIn("#define HAQBYLUR_HOLE_BIT 0x%xu\n" % document01.HOLE, header)
        self.assertIn("#define HAQBYLUR_ANYTHING 0x%xu\n" % document01.word(document01.ANYTHING), header)


if __name__ == "__main__":
    unittest.main()
