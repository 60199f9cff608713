"""The completions for bash, zsh and fish: they have what `--help` prints, and bash gives the right words."""

import pathlib
import re
import shutil
import subprocess
import tempfile

FOLDER = pathlib.Path(__file__).resolve().parent.parent / "completions"
FILES = {"bash": FOLDER / "ordtx.bash", "zsh": FOLDER / "_ordtx", "fish": FOLDER / "ordtx.fish"}

# How each shell's file writes a long option.
OPTION = {"bash": r"--%s\b", "zsh": r"--%s\b", "fish": r"-l %s\b"}

# Completes the last of the words, as bash does.
ASK = """
source "$0"
[[ $(complete -p ordtx) == *'-F _ordtx ordtx' ]] || exit 3
COMP_WORDS=("$@") COMP_CWORD=$(($# - 1))
_ordtx
printf '%s\\n' "${COMPREPLY[@]}"
"""


def helped(program):
    """The commands that `--help` prints, and the long options of each; those of the program have no command."""
    top = program.run(["--help"])[0].decode()
    commands = re.findall(r"^  ([a-z]+)  ", top.split("Commands:\n")[1].split("\n\n")[0], re.M)
    pages = {command: program.run(["help", command])[0].decode() for command in commands}
    pages[""] = top
    return commands, {command: set(re.findall(r"^ .*--([a-z]+)", page, re.M)) for command, page in pages.items()}


def try_file(program, shell, commands, options):
    text = FILES[shell].read_text()
    for command in commands:
        program.compare("%s completes %s" % (shell, command), [], (re.search(r"\b%s\b" % command, text) is not None,), (True,))
    for option in sorted(set().union(*options.values())):
        found = re.search(OPTION[shell] % option, text)
        program.compare("%s completes --%s" % (shell, option), [], (found is not None,), (True,))
    if shutil.which(shell):
        done = subprocess.run([shell, "-n", str(FILES[shell])], capture_output=True)
        program.compare("%s reads its completions" % shell, [], (done.stdout, done.returncode, done.stderr), (b"", 0, b""))


def try_bash(program, commands, options):
    rows = [([""], commands), (["r"], ["run"]), (["help", "s"], ["serial"]), (["run", "day.json", ""], []),
            (["run", "--workers", "6"], ["64"]), (["serial", "--workers", "3"], ["32"]), (["run", "--cut", "=", "25"], ["256"]), (["--"], long(options[""])),
            (["run", "--cut", "1", "day.json", "--a"], ["--audit"]), (["carry", "day.json", "--i"], ["--into"]),
            (["carry", "day.json", "--into", "day."], ["day.json"])]
    for command in ("run", "serial", "carry", "check", "locate"):
        rows += [([command, "--"], long(options[command])), ([command, ""], ["a day.json", "day.json", "days"]),
                 ([command, "day."], ["day.json"])]
    with tempfile.TemporaryDirectory() as folder:
        for name in ("day.json", "a day.json"):
            pathlib.Path(folder, name).touch()
        pathlib.Path(folder, "days").mkdir()
        for words, wanted in rows:
            done = subprocess.run(["bash", "--norc", "-c", ASK, str(FILES["bash"]), "ordtx", *words], capture_output=True, cwd=folder)
            got = sorted(done.stdout.decode().splitlines())
            program.compare("bash completes", ["ordtx", *words], ([word for word in got if word], done.returncode, done.stderr),
                            (sorted(wanted), 0, b""))


def long(options):
    return ["--" + option for option in options]


def try_all(program):
    commands, options = helped(program)
    for shell in FILES:
        try_file(program, shell, commands, options)
    if shutil.which("bash"):
        try_bash(program, commands, options)
