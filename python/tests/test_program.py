"""Summaries beside those of agg_tool: equal bytes, and each reads what the other wrote. PROGRAM names the executable."""

import os
import random
import subprocess
import tempfile
import unittest
from pathlib import Path

import agg
from tests.common import COLUMNS, QUERY, batch, new, some_rows

PROGRAM = os.environ.get("PROGRAM")


@unittest.skipUnless(PROGRAM, "PROGRAM names no agg_tool")
class Program(unittest.TestCase):
    def tool(self, *words):
        done = subprocess.run([PROGRAM, *words], cwd=self.folder, stdout=subprocess.PIPE, stderr=subprocess.PIPE)
        self.assertIn(done.returncode, (0, 1), done.stderr)
        return done.stdout.decode()

    def read(self, name):
        return Path(self.folder, name).read_bytes()

    def test_random_batches(self):
        for seed in range(25):
            chosen = random.Random(seed)
            with tempfile.TemporaryDirectory() as folder:
                self.folder = folder
                self.tool("new", "empty.sum", "--columns", COLUMNS, "--query", QUERY)
                self.assertEqual(self.read("empty.sum"), bytes(new()))
                parts = []
                for name in ("one", "other"):
                    summary, paths = new(), []
                    for _ in range(chosen.randrange(1, 8)):
                        origin, number = chosen.randrange(3), chosen.randrange(1, 5)
                        rows = some_rows(origin * 10 + number, 5 * number)
                        path = f"{origin}-{number}.csv"
                        Path(folder, path).write_bytes(batch(origin, number, rows))
                        paths.append(path)
                        summary.feed_rows(origin, number, rows)
                    self.tool("feed", f"{name}.sum", "empty.sum", *paths)
                    self.assertEqual(self.read(f"{name}.sum"), bytes(summary))
                    parts.append(summary)
                self.tool("merge", "both.sum", "one.sum", "other.sum")
                both = parts[0] | parts[1]
                self.assertEqual(self.read("both.sum"), bytes(both))
                self.assertEqual(self.tool("answer", "both.sum"), both.to_csv())
                self.assertEqual(self.tool("answer", "both.sum", "--format", "aligned"), both.to_text())
                Path(folder, "ours.sum").write_bytes(bytes(both))
                self.tool("merge", "again.sum", "ours.sum", "one.sum")
                self.assertEqual(agg.Summary.from_bytes(self.read("again.sum")), both)


if __name__ == "__main__":
    unittest.main()
