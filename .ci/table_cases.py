"""The cases of .ci/tables: a file of JSON for each subject, which is a list of cases.

A case has a name, the words of the command and its status, and, where they are not empty, the files that lie where it runs and
what it prints: `out` on standard output, `err` on standard error. A text is a list of lines; a character of a line is a byte.
A file is the name of one of .ci/tables/texts or of the examples, a text, a text after one of those,
{"after": NAME, "lines": TEXT}, or a string whose last line has no end, {"bytes": STRING}.
"""
import json
import pathlib
import tempfile

from stored_cases import differences, run

NEEDED = {"name", "words", "status"}
EMPTY = {"files": {}, "out": [], "err": []}


def bytes_of(lines):
    return "".join(line + "\n" for line in lines).encode("latin-1")


def content(file, folders):
    if isinstance(file, str):
        return next(folder / file for folder in folders if (folder / file).exists()).read_bytes()
    if isinstance(file, dict) and "bytes" in file:
        return file["bytes"].encode("latin-1")
    if isinstance(file, dict):
        return content(file["after"], folders) + bytes_of(file["lines"])
    return bytes_of(file)


def cases_of(table):
    """The cases of a table by their names, each with all its parts."""
    cases = {}
    for case in json.loads(table.read_text()):
        if not NEEDED <= case.keys() <= NEEDED | EMPTY.keys() or case["name"] in cases:
            raise ValueError(f"{table.name}: {case.get('name')} is no case, or its name stands twice")
        cases[case["name"]] = EMPTY | case
    return cases


def differs(program, name, case, folders):
    wanted = {"status": case["status"], "out": bytes_of(case["out"]), "err": bytes_of(case["err"])}
    with tempfile.TemporaryDirectory() as folder:
        for path, file in case["files"].items():
            pathlib.Path(folder, path).write_bytes(content(file, folders))
        return differences(name, run(program, case["words"], folder), wanted)


def check(program, tables, examples):
    count, wrong = 0, []
    for table in sorted(tables.glob("*.json")):
        for name, case in cases_of(table).items():
            wrong += differs(program, f"{table.stem}/{name}", case, [tables / "texts", examples])
            count += 1
    return count, wrong
