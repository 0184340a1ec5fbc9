"""The cases of .ci/graphs: what tools/trace-graph makes of a report.

A case has the file `report`, and `graph`, what comes of it. With a file `words` the program prints that report for these words,
one a line; the files that they name lie beside it.
"""
import pathlib
import subprocess

NO_TRACE = b"trace-graph: no trace; the report is to be made with --trace\n"


def differences(name, got, wanted):
    return [] if got == wanted else [f"{name}: got {got!r:.300}, wanted {wanted!r:.300}"]


def graph_of(tool, report):
    ran = subprocess.run([tool], input=report, capture_output=True, timeout=60)
    return ran.returncode, ran.stdout, ran.stderr


def report_of(program, case):
    words = (case / "words").read_text().split()
    return subprocess.run([program, *words], cwd=case, stdin=subprocess.DEVNULL, capture_output=True, timeout=60).stdout


def differs(program, tool, case):
    report = (case / "report").read_bytes()
    wrong = differences(f"{case.name}: graph", graph_of(tool, report), (0, (case / "graph").read_bytes(), b""))
    if (case / "words").exists():
        wrong += differences(f"{case.name}: report", report_of(program, case), report)
    return wrong


def check(program, top):
    tool = pathlib.Path(top, "tools/trace-graph")
    cases = sorted(path for path in pathlib.Path(top, ".ci/graphs").iterdir() if path.is_dir())
    wrong = [line for case in cases for line in differs(program, tool, case)]
    without = graph_of(tool, b"root r 1\nactivations 1\ntasks 1\nnulls 0\nheld 1 0 0 0\n")
    return len(cases) + 1, wrong + differences("no trace", without, (1, b"", NO_TRACE))
