"""Calls of laws are seen as such: a line `// laws`, or `// law:` with what the law says, stands above them.

A law call is a call of a function that has no result and writes nothing. It does nothing when it runs, and gives the prover the
function's contract. In a function that is no law itself such a call would else look like work.
"""

import pathlib
import re
import unittest

CRATES = pathlib.Path(__file__).resolve().parents[2] / "crates"
HEAD = re.compile(r"^( *)(?:pub(?:\([a-z]+\))? )?(?:const )?fn ([a-z_0-9]+)", re.MULTILINE)
CALL = re.compile(r"\s*(?:[a-z_]+::)*([a-z_0-9]+)(?:::<[^>]*>)?\(")


def functions(text):
    """The functions of a file: the name, the signature without its clauses, and the lines of the body."""
    for head in HEAD.finditer(text):
        indent = head.group(1)
        signature = re.compile(rf"\n{indent}    (?:requires|ensures)|\{{\}}?\s*\n|;\n").search(text, head.end())
        begin = re.compile(rf"^{indent}\{{(\}})?\s*$|\)(?: -> [^\n]*?)? \{{(\}})?$", re.MULTILINE).search(text, head.end())
        if signature and begin:
            end = begin if begin.group(1) or begin.group(2) else re.compile(rf"^{indent}\}}", re.MULTILINE).search(text, begin.end())
            yield head.group(2), text[head.start():signature.start()], text[begin.end():max(begin.end(), end.start())].split("\n")


def is_law(signature):
    """Whether a function has no result and writes nothing."""
    signature = re.sub(r"Fn\w*\([^)]*\) -> \w+", "", signature)
    return not any(sign in signature for sign in ("->", "&mut", "mut ", "self", "rt:"))


def unmarked(lines, laws):
    """The law calls of a body that have no mark above them."""
    marked = False
    for line in lines:
        call = CALL.match(line)
        if call and call.group(1) in laws and not re.match(r"\s*(?:let|return|if|match)\b", line):
            if not marked:
                yield line.strip()
        elif line.strip().startswith("// law"):
            marked = True
        elif not line.startswith(" " * 8) or not line.strip().startswith(("&", ")", "//")):
            marked = False


class Laws(unittest.TestCase):

    def test_each_call_of_a_law_is_marked(self):
        files = {file: list(functions(file.read_text(encoding="utf-8"))) for file in sorted(CRATES.glob("*/src/**/*.rt"))}
        laws = {name for found in files.values() for name, signature, _ in found if is_law(signature)}
        others = {name for found in files.values() for name, signature, _ in found if not is_law(signature)}
        self.assertGreater(len(laws - others), 150)
        for file, found in files.items():
            for name, signature, lines in found:
                if not is_law(signature):
                    with self.subTest(file=str(file.relative_to(CRATES)), function=name):
                        self.assertEqual(list(unmarked(lines, laws - others)), [])


if __name__ == "__main__":
    unittest.main()
