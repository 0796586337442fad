"""Tests that README.md and docs/ say of the repository what it has.

- Of words in `backticks`, a path is one of the repository's files or folders, whole or from a folder on (`Step.antt`,
  `specs/Run.antt`), and every other word is one of its code, definitions or tools, outside of comments and of tests of
  the tools, or is one of OUTSIDE. A command in a block of `sh` or `console` has paths that are there.
- Any other fenced block is a quote. The line of text before it ends with its file in backticks and a colon, and its
  lines are in that file, one after another. No block is made by indenting it.
- A block of `script` in BENCH.md is a script; of the next block, which runs it, the lines are those that it prints.
- In a table with the columns `function` and `file` each function is in one of the files of its row. The part of
  ARCHITECTURE.md on new calls names each file that the call Start is in.
- The run that README.md shows is examples/01-hello.expected, with lines that the script of the first run has.
- The tables of tools/wire.py, and those of docs/RULES.md, have the values that the definitions have.
"""
import ast
import os
import re
import textwrap
import unittest
from functools import lru_cache
from pathlib import Path

import wire

TOP = Path(__file__).resolve().parent.parent
CRATES = TOP / "crates"
DOCS = [TOP / "README.md", *sorted((TOP / "docs").glob("*.md"))]
WORD = re.compile(r"(?<!\w)[A-Za-z_]\w*")
PATH = re.compile(r"(?:\./)?[\w.*-]*(?:/[\w.*-]+)+/?|[\w*-]+/|[\w*-]+\.(?:rt|antt|md|py|txt)\b")
COMMENT = {".rt": r"//.*", ".antt": r"--.*"}

BUILT = "crates/audio_daemon/out/audio_daemon"  # the program, which the gate makes
# each stands for a word of the reader's
PLACEHOLDERS = {"FOLDER", "FILE", "SCRIPT", "NAME", "CODE", "GUID", "PROCESS", "N", "P", "EVENT", "FIELD", "VALUE",
                "SOUND", "HEX", "CLIENT", "xN"}
OUTSIDE = {"unsafe", "memcpy", "memset", "valgrind", "callgrind"}  # words of the language and the system


def repository():
    """The repository's files, by their paths below its top."""
    found = []
    for folder, folders, files in os.walk(TOP):
        folders[:] = [name for name in folders if name not in (".git", "out", "__pycache__")]
        found += [str((Path(folder) / file).relative_to(TOP)) for file in files]
    return sorted(found)


FILES = repository()
FOLDERS = sorted({str(folder) for file in FILES for folder in Path(file).parents if str(folder) != "."})


@lru_cache(maxsize=None)
def text_of(path):
    return (TOP / path).read_text(encoding="utf-8")


def python_words(source):
    """The names and strings of a script in Python, without its comments and docstrings."""
    tree, words = ast.parse(source), []
    docs = {id(node.body[0].value) for node in ast.walk(tree)
            if isinstance(node, (ast.Module, ast.FunctionDef, ast.ClassDef)) and isinstance(node.body[0], ast.Expr)}
    for node in ast.walk(tree):
        words += [getattr(node, field, "") for field in ("id", "name", "attr", "arg")]
        if isinstance(node, ast.Constant) and isinstance(node.value, str) and id(node) not in docs:
            words.append(node.value)
    return " ".join(word for word in words if isinstance(word, str))


def words_of_the_repository():
    words = set()
    for file in FILES:
        name, ending = Path(file).name, Path(file).suffix
        if ending in COMMENT:
            text = re.sub(COMMENT[ending], "", text_of(file))
        elif name in ("events", "bench") or ending == ".py" and not name.startswith("test_"):
            text = python_words(text_of(file))
        elif name in ("first-run", "run", "crates.txt", "HANDLES") or ending == ".script":
            text = re.sub(r"(?m)^ *#.*", "", text_of(file))
        else:
            text = ""
        words.update(WORD.findall(text + " " + file))
    return words


def resolve(path, among):
    """The paths that a path of the docs may mean: whole, or from a folder on. A * stands for any letters."""
    path = re.sub(r"^\./|/$", "", path)
    pattern = re.compile("(?:.*/)?" + ".*".join(map(re.escape, path.split("*"))))
    return [file for file in among if pattern.fullmatch(file)]


def is_there(path):
    return resolve(path, FILES + FOLDERS) or path == BUILT


def blocks(text):
    """The text without its fenced blocks, and of each block the line of text before it, its language and its lines."""
    prose, found, before, block = [], [], "", None
    for line in text.split("\n"):
        if line.startswith("```"):
            if block is None:
                block = (before, line[3:].strip(), [])
                found.append(block)
            else:
                block = None
        elif block is not None:
            block[2].append(line)
        else:
            prose.append(line)
            before = line if line.strip() else before
    return "\n".join(prose), found


PROSE, BLOCKS = {}, {}
for doc in DOCS:
    PROSE[doc.name], BLOCKS[doc.name] = blocks(doc.read_text(encoding="utf-8"))


def spans(text):
    return re.findall(r"`([^`\n]+)`", text)


class Docs(unittest.TestCase):
    maxDiff = None

    def test_words_in_backticks(self):
        words, missing = words_of_the_repository() | PLACEHOLDERS, set()
        for name, text in PROSE.items():
            for span in spans(text):
                with self.subTest(name, span=span):
                    rest = span
                    for path in PATH.findall(span):
                        if not set(WORD.findall(path)) & PLACEHOLDERS:
                            self.assertTrue(is_there(path), f"{path} is no file or folder")
                            rest = rest.replace(path, " ", 1)
                    missing |= set(WORD.findall(rest)) - words
                    self.assertEqual(set(WORD.findall(rest)) - words - OUTSIDE, set())
        self.assertEqual(OUTSIDE - missing, set(), "these are in no document, or are the repository's own")

    def test_paths_in_commands(self):
        for name, found in BLOCKS.items():
            for _, language, lines in found:
                if language in ("sh", "console"):
                    for line in lines:
                        if language == "sh" or line.startswith("$ "):
                            for path in PATH.findall(line):
                                with self.subTest(name, line=line):
                                    self.assertTrue(is_there(path), f"{path} is no file or folder")

    def test_quotes(self):
        for name, found in BLOCKS.items():
            for before, language, lines in found:
                if language not in ("sh", "console", "script"):
                    with self.subTest(name, block=lines[:1]):
                        path = re.search(r"`([^`]+)`[^`]*:$", before)
                        self.assertTrue(path, f"no file is named at the end of the line before: {before}")
                        files = resolve(path[1], FILES)
                        self.assertEqual(len(files), 1, f"{path[1]} is {files}")
                        source = text_of(files[0]).split("\n")
                        size = len(lines)
                        parts = (textwrap.dedent("\n".join(source[at:at + size])) for at in range(len(source)))
                        self.assertIn("\n".join(lines), list(parts), f"{files[0]} has other lines")

    def test_no_block_is_indented(self):
        for name, text in PROSE.items():
            self.assertEqual(re.findall(r"\n\n {4,}[^-*\d ].*", text), [], name)

    def test_functions_stand_in_their_files(self):
        for name, text in PROSE.items():
            for table in re.findall(r"(?m)^\|.*\n\|[-|]+\n(?:\|.*\n?)+", text):
                rows = [[cell.strip() for cell in line.strip("|").split("|")] for line in table.strip().split("\n")]
                if "function" not in rows[0] or "file" not in rows[0]:
                    continue
                for row in rows[2:]:
                    files = [file for path in spans(row[rows[0].index("file")]) for file in resolve(path, FILES)]
                    code = "\n".join(map(text_of, files))
                    for function in spans(row[rows[0].index("function")]):
                        with self.subTest(name, function=function, files=files):
                            *owner, function = function.split("::")
                            self.assertRegex(code, rf"\bfn {function}\b")
                            self.assertTrue(not owner or re.search(rf"\b{owner[0]}\b", code), f"{owner} isn't there")

    def test_every_file_of_a_call_is_named(self):
        section = PROSE["ARCHITECTURE.md"].split("## Where to add a call\n")[1].split("\n## ")[0]
        named = {file for span in spans(section) for file in resolve(span, FILES)}
        named |= {file for span in spans(section) if span.endswith("/") for file in FILES if f"/{span}" in file}
        start = re.compile(r"[Cc]all(?:::|\.)Start\b|\bstart_(?:plan|rows?|refusal)\b|\banswer_start\b")
        touched = {file for file in FILES if Path(file).suffix in COMMENT
                   and "tart" in text_of(file) and start.search(text_of(file))}
        self.assertEqual(touched - named, set())

    def test_the_run_in_the_readme(self):
        runs = [lines[1:] for _, _, lines in BLOCKS["README.md"] if lines[:1] == ["$ ./first-run"]]
        self.assertEqual(len(runs), 1, "README.md shows one run of ./first-run")
        expected = text_of("examples/01-hello.expected").split("\n")[:-1]
        self.assertEqual(runs[0][:len(expected)], expected)
        for line in runs[0][len(expected):]:
            self.assertIn(f'"{line}"', text_of("first-run"))


def definition(text, name):
    """The right-hand side of a definition: what comes after its name and `=`, up to an empty line."""
    return re.search(rf"(?ms)^{name} =(.*?)(?:^$|\Z)", text)[1]


def constants():
    """The numbers that ca_base names, by their names."""
    values = {}
    for file in "limits.rt", "values.rt":
        for name, value in re.findall(r"const (\w+): u\w+ = ([^;]+);", text_of(f"crates/ca_base/src/{file}")):
            values[name] = number(re.sub(r"\bu(\d+)::MAX\b", r"(2^\1 - 1)", value), values)
    return values


def number(text, values):
    """The value of a sum, a product, a power or a shift of numbers and of constants, as code or definitions have it."""
    if not re.fullmatch(r"[\w\s()+*<^-]+", text):
        raise ValueError(f"{text} is no number")
    return eval(text.replace("^", "**"), {"__builtins__": {}}, values)


def kinds():
    """Of each kind of a field what the wire has for it: its size or its form, and the least and the most."""
    text, values, found = text_of("crates/ca_model/specs/Fields.antt"), constants(), {}
    forms = {"n ∷ []": 1, "to_le_bytes w32 n": 4, "to_le_bytes w64 n": 8, "to_be_bytes w128 n": "guid",
             "to_le_bytes w16 (length xs) ++ xs": "counted", "xs": "rest"}
    for kind, form in re.findall(r"(?m)^field_bytes (\w+) \((?:number n|bytes xs)\) = (.+)$", text):
        if form != "[]":
            fits = re.search(rf"(?m)^Fits {kind} \((?:number n|bytes xs)\) = (.+)$", text)[1]
            least = 1 if "(0 < n)" in fits else 0
            bound = re.search(r"(<|≤) ([^<≤]+?)\)?$", fits)
            most = number(bound[2], values) - (bound[1] == "<") if bound else None
            found[kind] = (forms[form], least, most)
    return found


def on_the_wire(type_name):
    """The same of a type of tools/wire.py."""
    least, most = wire.LIMITS.get(type_name, (0, None))
    if type_name in wire.SIZES:
        size = wire.SIZES[type_name]
        return size, least, 256 ** size - 1 if most is None else most
    if type_name == "guid":
        return "guid", 0, 2 ** 128 - 1
    if type_name.endswith("[]"):
        return f"list of {wire.SIZES[type_name[:-2]]}", 0, None
    return "counted" if type_name in ("text", "format") else "rest", least, most


def fields_of(shape):
    """The fields of a shape that come after its kind, and after its code if it has one."""
    return shape.fields[len(wire.fields_of(wire.HEADS.get(shape.kind, ""))) + 1 if shape.code else 0:]


def shape_called(name):
    """The shape of an event by its name in the definitions. None if it has none."""
    return wire.SHAPES.get({"Release": "ReleaseClient"}.get(name, name))


class Tables(unittest.TestCase):
    maxDiff = None
    SPELLING = text_of("crates/ca_model/specs/Spelling.antt")
    EVENTS = text_of("crates/ca_model/src/event.rt")

    def has_fields(self, listed, types):
        known = kinds()
        self.assertEqual([known[kind] for kind in re.findall(r"\w+", listed)], list(map(on_the_wire, types)))

    def variants(self, enum):
        """The names of the variants of an enum of events, in order."""
        return re.findall(r"(?m)^    (\w+)", re.search(rf"(?ms)^pub enum {enum} {{$(.*?)^}}$", self.EVENTS)[1])

    def test_calls_and_device_events(self):
        for enum, kind, table, codes in (("Call", 3, "calls", "call_code"),
                                         ("DeviceEvent", 5, "device_events", "device_code")):
            rows = re.findall(r"\((\d+),\s*((?:\w+\s*∷\s*)*)\[\]\)", definition(self.SPELLING, table))
            names = re.findall(rf"(?m)^{codes} \(\w+\.(\w+)[^)]*\) = (\d+)$", self.SPELLING)
            self.assertEqual([name for name, _ in names] + ["Other"], self.variants(enum))
            self.assertEqual([code for _, code in names], [code for code, _ in rows])
            for (name, code), (_, listed) in zip(names, rows):
                with self.subTest(name):
                    shape = shape_called(name)
                    self.assertEqual((shape.kind, shape.code), (kind, int(code)))
                    self.has_fields(listed, [field.type for field in fields_of(shape)])

    def test_events_that_come_later(self):
        names = re.findall(r"(?m)^(?:call|device)_code \(\w+\.(\w+)", self.SPELLING)
        live = {shape_called(name).name for name in names if name != "Other"}
        live |= {shape_called(name).name for name in self.variants("Event")}
        self.assertEqual(wire.LATER, set(wire.SHAPES) - live)

    def test_kinds_of_events(self):
        heads = re.findall(r"(?m)^kinds \(?event\.(\w+)[^)=]*\)? = ([\w ∷]+?)∷ (?:\[\]|or_rest .*)$", self.SPELLING)
        numbers = re.findall(r"(?m)^fields \(?event\.(\w+)[^)=]*\)? = number (\w+) ", self.SPELLING)
        self.assertEqual([name for name, _ in heads], self.variants("Event"))
        self.assertEqual([name for name, _ in numbers], self.variants("Event"))
        for (name, listed), (_, kind) in zip(heads, numbers):
            with self.subTest(name):
                shape = wire.SHAPES[name]
                self.assertEqual((shape.kind, shape.code), (number(kind, constants()), None))
                self.has_fields(listed, ["u8"] + [field.type for field in shape.fields if field.type != "rest"])

    def test_result_codes(self):
        for path, pattern in (("crates/ca_base/src/codes.rt", r"const (\w+): Hr = Hr\((\w+)\);"),
                              ("crates/ca_base/specs/Codes.antt", r"\(hr\.(\w+), (\w+)\)")):
            with self.subTest(path):
                rows = re.findall(pattern, text_of(path))
                self.assertEqual({name: int(value, 0) for name, value in rows}, wire.RESULTS)

    def test_values_with_names(self):
        types = {"STATE": "state", "FLOW": "flow", "ROLE": "role", "SHARE": "share", "STREAM": "stream_flags",
                 "BUFFER": "buffer_flags", "KIND": "kind", "SESSION": "session_state"}
        names = {**wire.NAMES, "kind": {name.lower(): s.kind for name, s in wire.SHAPES.items() if s.code is None}}
        for constant, value in re.findall(r"const (\w+): u\w+ = (\w+);", text_of("crates/ca_base/src/values.rt")):
            prefix, name = constant.split("_", 1)
            with self.subTest(constant):
                of_type = names[types[prefix]]
                known = max((known for known in of_type if name.lower().endswith(known)), key=len, default=None)
                self.assertEqual(of_type.get(known), int(value, 0))

    def test_notices_with_names(self):
        found = {"notice": {}, "class": {}}
        for constant, value in re.findall(r"const (\w+): u8 = (\d+);", text_of("crates/event_notices/src/kinds.rt")):
            name = constant.removeprefix("CLASS_")
            found["notice" if name == constant else "class"][name.lower()] = int(value)
        self.assertEqual(found, {name: wire.NAMES[name] for name in found})

    def test_the_length_of_a_frame(self):
        self.assertEqual(wire.LIMITS["length"], (1, constants()["LONGEST_BODY"]))

    def test_limits_in_the_rules(self):
        values = constants()
        rows = re.findall(r"(?m)^\| `([A-Z_]+)` \| ([0-9,^ -]+) \|", PROSE["RULES.md"])
        self.assertTrue(rows)
        for name, value in rows:
            with self.subTest(name):
                self.assertEqual(number(value.replace(",", ""), {}), values.get(name))

    def test_codes_in_the_rules(self):
        for name, value in re.findall(r"\b([A-Z][A-Z_]+)\s\((0x[0-9A-F]{8})\)", PROSE["RULES.md"]):
            with self.subTest(name):
                self.assertEqual(int(value, 16), wire.RESULTS.get(name))

    def test_fields_in_the_rules(self):
        row = re.compile(r"(?m)^\| (?:(?P<kind>\d+) \| )?(?P<name>\w+)(?: event| \(I\w+\))? \| "
                         r"(?:(?P<code>\d+) \| )?(?P<fields>[^|]*) \|$")
        found = []
        for row in row.finditer(PROSE["RULES.md"]):
            shape = shape_called(row["name"])
            if shape:
                with self.subTest(row[0]):
                    fields = fields_of(shape) if row["kind"] or row["code"] else wire.PAYLOADS[shape.name, wire.S_OK]
                    self.assertEqual(int(row["kind"] or shape.kind), shape.kind)
                    self.assertEqual(int(row["code"] or shape.code or 0), shape.code or 0)
                    types = [field.type for field in fields if not (row["kind"] and field.type == "rest")]
                    listed = row["fields"].replace(", the code's fields", "")
                    self.assertEqual(self.forms(listed), [on_the_wire(type_name)[0] for type_name in types])
                    found.append(shape.name)
        self.assertEqual(found.count("Activate"), 2, found)

    def forms(self, listed):
        """The sizes or forms of the fields that a row lists, such as `client (8), format, data (rest)`."""
        words = {"text": "counted", "format": "counted", "GUID": "guid", "rest": "rest", "connection": 1}
        fields = [re.sub(r".*\(([\w ]+)\)$", r"\1", field) for field in listed.split(", ") if listed != "none"]
        return [int(field) if field.isdigit() else words.get(field, field) for field in fields]


if __name__ == "__main__":
    unittest.main()
