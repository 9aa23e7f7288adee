"""The examples of the docstrings, and the lines of README.md."""
import doctest
import importlib
import inspect
import os
import pathlib
import re
import subprocess
import typing
import unittest

import mossquilt

PYTHON = pathlib.Path(__file__).parent.parent


def load_tests(loader, tests, pattern):
    for file in sorted((PYTHON / "mossquilt").glob("*.py")):
        module = importlib.import_module(f"mossquilt.{file.stem}".removesuffix(".__init__"))
        tests.addTests(doctest.DocTestSuite(module))
    return tests


class Documentation(unittest.TestCase):
    def test_every_function_has_an_example_and_types(self):
        for name in mossquilt.__all__:
            thing = getattr(mossquilt, name)
            self.assertTrue(thing.__doc__, name)
            if inspect.isfunction(thing):
                self.assertIn(">>> ", thing.__doc__, name)
                hints = typing.get_type_hints(thing)
                self.assertLessEqual(set(inspect.signature(thing).parameters) | {"return"}, set(hints), name)

    def test_the_lines_of_the_readme_print_what_it_shows(self):
        text = (PYTHON / "README.md").read_text()
        lines, shown = re.findall(r"((?:^    .*\n)+)", text, re.MULTILINE)[:2]
        command = "".join(line[4:] for line in lines.splitlines(True) if "python/build" not in line)
        done = subprocess.run(["sh", "-e"], input=command, cwd=PYTHON.parent, env=os.environ, capture_output=True, text=True)
        self.assertEqual((done.stdout, done.stderr), ("".join(line[4:] for line in shown.splitlines(True)), ""))


if __name__ == "__main__":
    unittest.main()
