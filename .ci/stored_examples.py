"""The programs in examples/: each prints what its comment says, and its canonical text prints as itself."""
import re
import subprocess
import tempfile


def told(program, *words):
    ran = subprocess.run([program, *words], capture_output=True, timeout=60)
    return ran.returncode, ran.stdout


def said(text):
    """The status and the report that a program's comment says: the report's lines stand in three blanks."""
    comment = [line for line in text.splitlines() if line.startswith("#")]
    report = [line.removeprefix("#   ") for line in comment if line.startswith("#   ")]
    status = re.search(r"status(?: is)? (\d)", " ".join(line.lstrip("# ") for line in comment))
    return int(status[1]) if status else 0, "".join(line + "\n" for line in report).encode()


def words_of(path):
    """The file, and the columns that its comment says it is run with."""
    columns = re.search(r"with `(\w+\.csv)`", path.read_text())
    return [str(path)] + ([str(path.parent / columns[1])] if columns else [])


def prints_as_itself(program, path):
    status, text = told(program, "print", str(path))
    with tempfile.NamedTemporaryFile(suffix=".kt") as file:
        file.write(text)
        file.flush()
        return status == 0 and told(program, "print", file.name) == (0, text)


def check(program, folder):
    examples = sorted(folder.glob("*.kt"))
    wrong = []
    for path in examples:
        if told(program, "run", *words_of(path)) != said(path.read_text()):
            wrong.append(f"{path.name}: does not print what it says")
        if not prints_as_itself(program, path):
            wrong.append(f"{path.name}: its canonical text does not print as itself")
    return len(examples), wrong
