"""Cases whose files are too large to store, and one whose output goes to a full device."""
import pathlib
import subprocess
import tempfile

from stored_cases import differences, run

MOST_BYTES = 16_777_216
ONE = "ktask 1\nkind one\nstate start\n  done 1\nend\n"


def long_program(size):
    """A program of this many bytes: a long comment, and a root in its last line."""
    last = "root r one\n"
    comment = size - len(ONE) - len(last) - len("#\n")
    return ONE + "#" + "." * comment + "\n" + last


def many_roots():
    return ONE + "".join(f"root r{at} one\n" for at in range(16))


def many_kinds():
    kinds = "".join(f"kind k{at}\nstate start\n  done {at}\nend\n" for at in range(64))
    return "ktask 1\n" + kinds + "root r k63\n"


def deep():
    """A chain of 100,000 tasks below the root's, each of which waits for the next."""
    return """ktask 1
kind down n
  var m @a
state start
  if n == 0 goto out
  sub m n 1
  spawn @a down m
  again up behind @a
  label out
  done 0
state up holds @a settled @a
  get m @a
  add m m 1
  done m
end
root r down 100000
"""


def root_lines(out):
    return b"".join(line + b"\n" for line in out.splitlines() if line.startswith(b"root "))


def run_text(program, text):
    with tempfile.TemporaryDirectory() as folder:
        pathlib.Path(folder, "p.kt").write_text(text)
        got = run(program, ["run", "p.kt"], folder)
    return got | {"out": root_lines(got["out"])}


def fills_the_device(program):
    """The output of a run goes to a device without room."""
    with tempfile.TemporaryDirectory() as folder, open("/dev/full", "wb") as full:
        pathlib.Path(folder, "p.kt").write_text(ONE + "root r one\n")
        ran = subprocess.run([program, "run", "p.kt"], cwd=folder, stdout=full, stderr=subprocess.PIPE, timeout=60)
    return {"status": ran.returncode, "out": b"", "err": ran.stderr}


def done(out, status=0):
    return {"status": status, "out": out, "err": b""}


TOO_LONG = {"status": 7, "out": b"", "err": b"ktask: p.kt is longer than 16777216 bytes\n"}

TEXTS = {
    "file-of-the-greatest-size": (long_program(MOST_BYTES), done(b"root r 1\n")),
    "file-one-byte-too-long": (long_program(MOST_BYTES + 1), TOO_LONG),
    "line-ends-one-byte-too-many": ("\n" * (MOST_BYTES + 1), TOO_LONG),
    "file-past-a-million-bytes": (long_program(1_000_001), done(b"root r 1\n")),
    "sixteen-roots": (many_roots(), done(b"".join(b"root r%d 1\n" % at for at in range(16)))),
    "sixty-four-kinds": (many_kinds(), done(b"root r 63\n")),
    "deep": (deep(), done(b"root r 100000\n")),
}


def check(program):
    wrong = []
    for name, (text, wanted) in TEXTS.items():
        wrong += differences(name, run_text(program, text), wanted)
    full = {"status": 8, "out": b"", "err": b"ktask: write fault\n"}
    wrong += differences("full-device", fills_the_device(program), full)
    return len(TEXTS) + 1, wrong
