"""The commands that the pages show, in blocks marked `console`: lines that begin with `$ ` are run, the others are what they print.

The commands of a block run one after another in one empty folder, with the program as `ktask`. What they print on both
streams is compared with the block.
"""
import os
import pathlib
import re
import subprocess
import tempfile

BLOCK = re.compile(r"^```console\n(.*?)^```$", re.MULTILINE | re.DOTALL)


def parts_of(block):
    """The commands of a block, in their order, and all that they print."""
    commands, printed = [], []
    for line in block.splitlines():
        if line.startswith("$ "):
            commands.append(line[2:])
        elif line.startswith("> ") and commands and not printed:
            commands.append(line[2:])
        else:
            printed.append(line + "\n")
    return "\n".join(commands), "".join(printed)


def run_block(program, commands):
    with tempfile.TemporaryDirectory() as folder, tempfile.TemporaryDirectory() as tools:
        os.symlink(program, pathlib.Path(tools, "ktask"))
        ran = subprocess.run(
            ["bash", "-c", commands],
            cwd=folder,
            env=os.environ | {"PATH": tools + ":" + os.environ["PATH"]},
            stdout=subprocess.PIPE,
            stderr=subprocess.STDOUT,
            timeout=120,
        )
    return ran.stdout.decode(errors="replace")


def check(program, folder):
    count, wrong = 0, []
    for page in sorted(folder.glob("*.md")):
        for block in BLOCK.findall(page.read_text()):
            commands, wanted = parts_of(block)
            got = run_block(program, commands)
            count += 1
            if got != wanted:
                wrong.append(f"{page.name}: {commands!r}: got {got!r:.300}, wanted {wanted!r:.300}")
    return count, wrong
