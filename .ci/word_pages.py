"""The man page and the completions, against what the program says of its own words by `ktask help`."""
import pathlib
import re
import subprocess

MAN = "man/ktask.1"
BASH = "completions/ktask.bash"
ZSH = "completions/_ktask"
FISH = "completions/ktask.fish"

# Prints what bash offers for the words that are given, of which the last is unfinished.
OFFER = 'source "$1"; shift; COMP_WORDS=("$@"); COMP_CWORD=$(($# - 1)); _ktask; printf "%s\\n" "${COMPREPLY[@]}"'


def told(program, *words):
    ran = subprocess.run([program, *words], capture_output=True, stdin=subprocess.DEVNULL, timeout=60)
    return ran.returncode, ran.stdout.decode()


def options_of(usage):
    """The options in the line of a command, each with the word for its value, or None where it has none."""
    return {name: value or None for name, value in re.findall(r"\[--(\w+)(?: (\w))?\]", usage)}


def commands_of(usages):
    """The options of each command, by lines that begin with `ktask COMMAND`."""
    return {usage.split()[1]: options_of(usage) for usage in usages}


# ---- the man page


def section(page, name):
    return re.search(rf'^\.SH "?{name}"?\n(.*?)(?=^\.SH |\Z)', page, re.MULTILINE | re.DOTALL)[1]


def entries(text):
    """What stands on the line behind each `.TP`, without its fonts."""
    heads = re.findall(r"^\.TP\n\.[BIR]+ (.*)$", text, re.MULTILINE)
    return [head.replace("\\-", "-").replace('"', "").split() for head in heads]


def man_differences(page, usages):
    commands = commands_of(usages)
    options = {name: value for taken in commands.values() for name, value in taken.items()}
    synopsis = [line.replace("\\-", "-") for line in section(page, "SYNOPSIS").splitlines() if not line.startswith(".")]
    explained = {words[0].removeprefix("--"): (words[1:] or [None])[0] for words in entries(section(page, "OPTIONS"))}
    yield "synopsis", synopsis, usages
    yield "commands", [words[0] for words in entries(section(page, "COMMANDS"))], list(commands)
    yield "options", explained, options


# ---- the completions


def bash_offers(path, *words):
    ran = subprocess.run(["bash", "-c", OFFER, "bash", path, "ktask", *words], capture_output=True, timeout=60)
    return set(ran.stdout.decode().split())


def zsh_words(text):
    """The commands, and for each of them the options with whether they take a value."""
    described = re.search(r"commands=\((.*?)\n  \)", text, re.DOTALL)[1]
    plan = re.search(r"plan=\((.*?)\n  \)", text, re.DOTALL)[1]
    arms = {}
    for names, taken in re.findall(r"^    ([\w |]+)\) _arguments ?(.*) ;;$", text, re.MULTILINE):
        options = re.findall(r"'--(\w+)(=?)", taken.replace("$plan", plan))
        arms |= {name: {option: bool(value) for option, value in options} for name in names.split(" | ")}
    return re.findall(r"'(\w+):", described), arms


def fish_words(text):
    commands = re.findall(r"__fish_use_subcommand -a (\w+)", text)
    arms = {name: {} for name in commands}
    for names, option, value in re.findall(r"seen_subcommand_from ([\w ]+)' -l (\w+)( -x)?", text):
        for name in names.split():
            arms[name][option] = bool(value)
    return commands, arms


def completion_differences(folder, usages):
    commands = commands_of(usages)
    takes_value = {name: {option: value is not None for option, value in taken.items()} for name, taken in commands.items()}
    yield f"{BASH}: commands", bash_offers(folder / BASH, ""), set(commands)
    for name, taken in commands.items():
        wanted = {f"--{option}" for option in taken}
        yield f"{BASH}: {name}", bash_offers(folder / BASH, name, "-"), wanted
    for path, words in ((ZSH, zsh_words), (FISH, fish_words)):
        offered, arms = words((folder / path).read_text())
        yield f"{path}: commands", offered, list(commands)
        yield f"{path}: options", arms, takes_value


# ---- all of it


def family_differences(program, folder):
    """Each family that is offered is one, and the man page has the greatest number of each."""
    page = re.sub(r"\n\.B |\n", " ", section((folder / MAN).read_text(), "COMMANDS"))
    greatest = {name: int(number.replace(",", "")) for name, number in re.findall(r"(\w+) \([^()]*N up to ([\d,]+)\)", page)}
    for path, offered in (
        (BASH, bash_offers(folder / BASH, "bench", "")),
        (ZSH, set(re.search(r":family:\((.*?)\)", (folder / ZSH).read_text())[1].split())),
        (FISH, set(re.search(r"from bench' -a '(.*?)'", (folder / FISH).read_text())[1].split())),
    ):
        yield f"{path}: families", offered, set(greatest)
    for name, number in greatest.items():
        statuses = [told(program, "bench", name, str(last))[0] for last in (number, number + 1)]
        yield f"{MAN}: {name} up to {number}", statuses, [0, 2]


def check(program, folder):
    folder = pathlib.Path(folder)
    usages = told(program, "help")[1].splitlines()
    found = [
        *((f"{MAN}: {part}", got, wanted) for part, got, wanted in man_differences((folder / MAN).read_text(), usages)),
        *completion_differences(folder, usages),
        *family_differences(program, folder),
    ]
    return len(found), [f"{part}: {got!r:.300} and not {wanted!r:.300}" for part, got, wanted in found if got != wanted]
