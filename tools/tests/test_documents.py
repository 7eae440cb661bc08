"""The commands that stand in documents."""
import unittest

from shq_tools.document_commands import commands_in, is_printed, run
from shq_tools.places import TOP

DOCUMENT = """# Title

```sh
./shq classify
rt ci
```

```text
consistent
..
```

Words.

```sh
echo one
```

Words between.

```text
no output
```

```sh
rt ci
```
"""


class Documents(unittest.TestCase):
    def test_commands(self):
        found = [(it.line, it.text, it.printed) for it in commands_in(DOCUMENT)]
        self.assertEqual(found, [(3, "./shq classify\n", "consistent\n..\n"), (15, "echo one\n", None)])

    def test_any_lines(self):
        self.assertTrue(is_printed("a\n..\nb\n", "a\nx\ny\nb\n"))
        self.assertTrue(is_printed("a\n..\n", "a\n"))
        self.assertFalse(is_printed("a\n", "a\nb\n"))
        self.assertFalse(is_printed("a.\n", "ab\n"))

    def test_run(self):
        (block, *_) = commands_in("```sh\necho one; exit 3\n```\n```text\none\n```\n")
        self.assertIn("ended with 3", run(block, TOP))
        (block, *_) = commands_in("```sh\necho one\n```\n```text\ntwo\n```\n")
        self.assertIn("printed", run(block, TOP))
        block.printed = "one\n"
        self.assertIsNone(run(block, TOP))
