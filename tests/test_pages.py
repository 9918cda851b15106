"""The pages held to what they speak of: docs/FORMAT.md to the six-person file, the picture of the rooms to crates.txt, README's question to
the program, its version to the header, the six-person file to the one that row_views is run on. target/bin/chains has to stand."""

import re
import subprocess
import sys
import tempfile
import unittest
from datetime import datetime
from pathlib import Path

ROOT = Path(__file__).resolve().parent.parent
SIX_PERSONS = (ROOT / "examples" / "six_persons.klf").read_bytes()


def section(page, heading):
    """What stands under a heading of a page, up to the next one."""
    return (ROOT / page).read_text().split(f"\n## {heading}\n")[1].split("\n## ")[0]


def blocks(text):
    """The blocks of indented lines."""
    return [re.sub("^    ", "", block, flags=re.M) for block in re.findall(r"(?:^    .*\n)+", text, flags=re.M)]


def six_persons_lines():
    """The six-person file in docs/FORMAT.md, line by line: the place, the fields, the words."""
    (block,) = blocks(section("docs/FORMAT.md", "The six-person file, byte by byte"))
    for line in block.splitlines():
        place, fields, words = re.fullmatch(r" *(\d+)  ([0-9A-F]{2}(?: {1,2}[0-9A-F]{2})*) {3,}(.+)", line).groups()
        yield int(place), [bytes.fromhex(field) for field in fields.split("  ")], words


class Format(unittest.TestCase):
    def test_the_writer_writes_the_six_person_file(self):
        writer = section("docs/FORMAT.md", "A writer").split("```python\n")[1].split("```")[0]
        with tempfile.TemporaryDirectory() as folder:
            subprocess.run([sys.executable, "-c", writer], cwd=folder, check=True)
            self.assertEqual((Path(folder) / "six_persons.klf").read_bytes(), SIX_PERSONS)

    def test_the_six_person_file_is_the_one_of_the_row_views(self):
        self.assertEqual((ROOT / "crates" / "row_views" / "stdin").read_bytes(), SIX_PERSONS)

    def test_the_bytes_are_those_of_the_six_person_file(self):
        shown = b""
        for place, fields, _ in six_persons_lines():
            self.assertEqual(place, len(shown))
            shown += b"".join(fields)
        self.assertEqual(shown, SIX_PERSONS)

    def test_the_words_say_the_bytes(self):
        (_, mark, words), *lines = six_persons_lines()
        self.assertIn(mark[0].decode(), words)
        for _, fields, words in lines:
            plain = re.sub(r"\(.*?\)", "", words).replace("undated", "0").replace("zero", "0")
            said = iter(re.findall(r"\d+", plain))
            for field in fields:
                self.assertTrue(str(int.from_bytes(field, "little")) in said, words)

    def test_the_days_are_those_of_the_calendar(self):
        dated = re.findall(r"day (\d+) \((.*?)\)", section("docs/FORMAT.md", "The six-person file, byte by byte"))
        for day, date in dated:
            self.assertEqual(datetime.strptime(date, "%d %B %Y").toordinal(), int(day))
        self.assertEqual(len(dated), 8)


class Readme(unittest.TestCase):
    def test_the_picture_is_that_of_crates_txt(self):
        drawn = subprocess.run(
            [sys.executable, ROOT / "docs" / "rooms.py"], input=(ROOT / "crates.txt").read_bytes(), stdout=subprocess.PIPE, check=True
        )
        self.assertEqual(drawn.stdout, (ROOT / "docs" / "rooms.svg").read_bytes(), "python3 docs/rooms.py < crates.txt > docs/rooms.svg")

    def test_every_room_has_its_row(self):
        rooms = re.findall(r"^(\w+)(?: staticlib)?:", (ROOT / "crates.txt").read_text(), flags=re.M)
        rows = re.findall(r"^\| `(\w+)` \|", section("README.md", "How the house is laid out"), flags=re.M)
        self.assertEqual(sorted(rows), sorted(rooms))

    def test_another_question_prints_what_is_shown(self):
        command, shown = blocks(section("README.md", "Asking another question"))
        printed = subprocess.run(command, shell=True, cwd=ROOT, stdout=subprocess.PIPE, check=True, text=True).stdout
        self.assertEqual(printed, shown)

    def test_the_version_is_the_header_s(self):
        (version,) = re.findall(r'KIN_VERSION "(.*)"', (ROOT / "include" / "kin.h").read_text())
        self.assertIn(f"version {version},", section("README.md", "Which name is what"))


if __name__ == "__main__":
    unittest.main()
