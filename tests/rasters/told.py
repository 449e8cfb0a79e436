"""Statistics and windows as JSON."""
import json

import numpy

from rasters.files import Case, decibels, marks_of


def flat(thing, found):
    """Every named value of a JSON text, of whatever depth."""
    for key, value in thing.items() if isinstance(thing, dict) else enumerate(thing):
        if isinstance(value, (dict, list)):
            flat(value, found)
        elif isinstance(key, str):
            found.setdefault(key, value)
    return found


def told(text):
    """The named numbers of a plain text: lines of a name and a value, behind it words with numbers of their own; what stands in parentheses is left out."""
    for line in text.splitlines():
        name, value, *more = line.partition(" (")[0].split()
        yield name, value
        yield from ((f"{name}_{word}".replace("column", "col"), number) for word, number in zip(more[::2], more[1::2], strict=True))


class Json(Case):
    """The same numbers as the plain text."""

    def parsed(self, *words):
        def constant(word):
            raise AssertionError(f"{word} is not JSON")
        return flat(json.loads(self.done(*words, "--json").stdout, parse_constant=constant), {})

    def test_numbers(self):
        two = self.tiff("two bands.tif", numpy.stack([decibels(20, 30), decibels(20, 30, 2)]), nodata=-9999.0)
        marks = self.save("m.npy", marks_of(20, 30))
        for words in (("stats", two + ":2", marks), ("window", two + ":2", marks, "--strategy", "robust"),
                      ("window", two + ":2", marks, "--strategy", "standard"),
                      ("stats", two + ":2", "--marks", "auto"), ("window", two + ":2", "--marks", "auto", "--strategy", "tamed")):
            found, plain = self.parsed(*words), list(told(self.done(*words).stdout))
            self.assertEqual((found["rows"], found["cols"], found["band"]), (20, 30, 2))
            self.assertIn("two bands.tif", found["file"])
            self.assertEqual(len(plain), 20 if words[0] == "stats" else 4)
            for key, text in plain:
                self.assertEqual(float(found[key]), float(text), (words, key))

    def test_more(self):
        db, marks = self.save("db.npy", decibels(20, 30)), self.save("m.npy", marks_of(20, 30))
        found = self.parsed("stats", db, marks, "--crop", "3,4,10,12")
        self.assertEqual((found["rows"], found["cols"]), (10, 12))
        part = [self.save("part.npy", decibels(20, 30)[3:13, 4:16]), self.save("mpart.npy", marks_of(20, 30)[3:13, 4:16])]
        plain = self.done("stats", *part).stdout
        row, col = found["max_row"], found["max_col"]
        plain = plain.replace(f"row {row} column {col}", f"row {row} column {col} (row {row + 3} column {col + 4} of the file)")
        self.assertEqual(self.done("stats", db, marks, "--crop", "3,4,10,12").stdout, plain)
        for key, text in told(plain):
            self.assertEqual(float(found[key]), float(text), key)
        none = self.save("none.npy", numpy.zeros((20, 30), "u1"))
        for command in ("stats", "window"):
            found = self.parsed(command, db, none)
            self.assertEqual((found["rows"], found["cols"]), (20, 30))
        quoted = self.tiff('a "quoted"\\name.tif', decibels(20, 30))
        self.assertIn('a "quoted"\\name.tif', self.parsed("stats", quoted, marks)["file"])
