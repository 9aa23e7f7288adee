"""The package beside include/zone.h: its exports, their parameters and the refusals."""
import pathlib
import re
import unittest

import mossquilt
from mossquilt._library import EXPORTS

HEADER = (pathlib.Path(__file__).parent.parent.parent / "include" / "zone.h").read_text()
LETTERS = {
    r"(const )?int64_t \*\w+, size_t \w+_len": "s",
    r"(const )?double \*\w+, size_t \w+_len": "f",
    r"(const )?uint8_t \*\w+, size_t \w+_len": "u",
    r"int64_t \w+": "i",
    r"bool \w+": "b",
}


def letters_of(parameters):
    made = ""
    while parameters:
        for pattern, letter in LETTERS.items():
            found = re.match(pattern + r"(, |$)", parameters)
            if found:
                made, parameters = made + letter, parameters[found.end() :]
                break
        else:
            raise ValueError(parameters)
    return made


class Header(unittest.TestCase):
    def test_every_export_with_its_parameters(self):
        plain = " ".join(re.sub(r"/\*.*?\*/|^#.*?$", "", HEADER, flags=re.DOTALL | re.MULTILINE).split())
        found = {name: letters_of(given) for name, given in re.findall(r"int64_t zone_(\w+)\(([^)]*)\);", plain)}
        self.assertEqual(len(found), 27)
        self.assertEqual(found, EXPORTS)

    def test_every_export_is_a_function(self):
        for name in EXPORTS:
            self.assertTrue(callable(getattr(mossquilt, "list_job" if name == "list" else name)), name)

    def test_every_refusal(self):
        found = {name: int(number) for name, number in re.findall(r"ZONE_(\w+) = (\d+)[,\s]", HEADER) if number != "0"}
        self.assertEqual(found, {refusal.name: refusal.value for refusal in mossquilt.Refusal})
        for refusal in mossquilt.Refusal:
            self.assertTrue(refusal.meaning and refusal.advice)


if __name__ == "__main__":
    unittest.main()
