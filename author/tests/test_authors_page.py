"""Every block of docs/AUTHORS.md is run: Python in one namespace, books by the judge in Python and the program,
commands of the shell in a folder with the package and the program."""
import contextlib
import io
import os
import re
import subprocess
import tempfile
import unittest
from pathlib import Path

import support
from milawa_author.judge import Judge
from milawa_author.program import run_program
from milawa_author.rules.schemes import SCHEMES

PAGE = (support.REPOSITORY / "docs" / "AUTHORS.md").read_text("utf-8")
BLOCKS = re.findall(r"^```(\w+)([^\n]*)\n(.*?)^```$", PAGE, flags=re.S | re.M)


class Page(unittest.TestCase):
    def test_lines_are_short(self):
        for number, line in enumerate(PAGE.splitlines(), 1):
            self.assertLessEqual(len(line), 100, number)

    def test_no_block_is_left_out(self):
        self.assertEqual({language for language, *_ in BLOCKS}, {"python", "book", "sh"})
        self.assertEqual(PAGE.count("```"), 2 * len(BLOCKS))

    def judged(self, text):
        lines = list(Judge().report(text))
        self.assertIn(" refused 0 ", lines[-1])
        if support.PROGRAM:
            self.assertEqual(run_program("check", text=text).lines, lines)

    def test_python_and_books(self):
        self.addCleanup(SCHEMES.pop, "BY-CASES", None)
        names, output, alone = {"__name__": "page"}, io.StringIO(), ""
        for language, details, text in BLOCKS:
            with contextlib.redirect_stdout(output), contextlib.redirect_stderr(output):
                if language == "python":
                    exec(compile(text, f"AUTHORS.md,{details or ' python'}", "exec"), names)
            if language == "book" and "after python" in details:
                self.judged(names["book"].text() + text)
            elif language == "book":
                alone += text
        self.judged(alone)
        self.judged(names["mine"].text())
        self.assertIn("(pequal* (consp x) 'nil)", output.getvalue())
        self.assertIn("BY-CASES", names["proof"].methods)

    @support.needs_program
    def test_commands(self):
        first = next(text for _, details, text in BLOCKS if details.strip() == "first.py")
        with tempfile.TemporaryDirectory() as folder:
            Path(folder, "first.py").write_text(first)
            os.symlink(support.REPOSITORY / "author", Path(folder, "author"))
            os.symlink(Path(support.PROGRAM).resolve(), Path(folder, "milawa"))
            environment = {**os.environ, "PATH": f"{folder}:{os.environ['PATH']}"}
            output = ""
            for language, _, text in BLOCKS:
                if language == "sh":
                    done = subprocess.run(["bash", "-e", "-c", text], cwd=folder, env=environment, text=True,
                                          stdout=subprocess.PIPE, stderr=subprocess.PIPE, check=False)
                    self.assertEqual(done.returncode, 0, done.stderr)
                    output += done.stdout
        self.assertIn("events 20 accepted 20 refused 0 level 1", output)
        self.assertEqual(len(re.findall(r"^events \d+ accepted \d+ refused 0 level \d+$", output, flags=re.M)), 5)
        self.assertRegex(output, r"events \d+ yes \d+ no 0 left 0")


if __name__ == "__main__":
    unittest.main()
