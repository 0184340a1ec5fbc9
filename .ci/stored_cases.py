"""The cases of .ci/cases, a folder each.

A case has the files `words` (one word a line), `status`, `out` and `err`, and the files that the words name. In `words`
and `names`, \\n, \\s and \\\\ stand for a line end, a blank and a backslash. The file `names`, where there is one, has lines
`STORED NAME`: that file lies under that name when the program runs.
"""
import pathlib
import shutil
import subprocess
import tempfile

DESCRIPTION = ("words", "status", "out", "err", "names")
ESCAPES = {"n": "\n", "s": " ", "\\": "\\"}


def unescaped(text):
    parts = iter(text)
    return "".join(ESCAPES[next(parts)] if part == "\\" else part for part in parts)


def lay_out(case, folder):
    """The case's files in the folder where the program runs."""
    names = {}
    if (case / "names").exists():
        names = dict(line.split(" ") for line in (case / "names").read_text().splitlines())
    for path in case.iterdir():
        if path.name not in DESCRIPTION:
            shutil.copy(path, folder / unescaped(names.get(path.name, path.name)))


def run(program, words, folder):
    ran = subprocess.run([program, *words], cwd=folder, stdin=subprocess.DEVNULL, capture_output=True, timeout=120)
    return {"status": ran.returncode, "out": ran.stdout, "err": ran.stderr}


def differences(name, got, wanted):
    return [f"{name}: {part}: got {got[part]!r:.300}, wanted {wanted[part]!r:.300}" for part in wanted if got[part] != wanted[part]]


def differs(program, case):
    words = [unescaped(line) for line in (case / "words").read_text().splitlines()]
    wanted = {
        "status": int((case / "status").read_text()),
        "out": (case / "out").read_bytes(),
        "err": (case / "err").read_bytes(),
    }
    with tempfile.TemporaryDirectory() as folder:
        lay_out(case, pathlib.Path(folder))
        return differences(case.name, run(program, words, folder), wanted)


def check(program, folder):
    cases = sorted(path for path in folder.iterdir() if path.is_dir())
    return len(cases), [line for case in cases for line in differs(program, case)]
