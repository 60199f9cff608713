"""Command lines."""

REFUSED = (
    [],
    ["go"],
    ["run", "a", "b"],
    ["run", "--workers", "0"],
    ["run", "--workers", "65"],
    ["run", "--workers", "-1"],
    ["run", "--workers", "two"],
    ["run", "--workers"],
    ["run", "--workers", "4294967296"],
    ["run", "--cut", "0"],
    ["run", "--cut", "1001"],
    ["run", "--cut", "x"],
    ["run", "--cut", "1", "--cut", "2"],
    ["run", "--audit", "--audit"],
    ["run", "--fast"],
    ["serial", "--workers", "0"],
    ["serial", "--cut", "1"],
    ["serial", "--audit"],
    ["carry", "--workers", "65"],
    ["carry", "--cut", "1"],
    ["carry", "a", "b"],
    ["carry", "--into"],
    ["carry", "--into", "-"],
    ["carry", "-", "--into", "-"],
    ["carry", "--into", "a", "--into", "b"],
    ["serial", "--into", "a"],
    ["check", "--workers", "two"],
    ["check", "--cut", "1"],
    ["check", "--audit"],
    ["locate", "--workers", "1"],
    ["locate", "a", "b"],
    ["place"],
    ["help", "nosuch"],
    ["help", "--version"],
)

# Each is out of its option's range.
OUT_OF_RANGE = (
    ("--workers", "N", "0", 64),
    ("--workers", "N", "65", 64),
    ("--workers", "N", "4294967296", 64),
    ("--cut", "K", "0", 1000),
    ("--cut", "K", "1001", 1000),
)

TRY_HELP = b"\n\nFor more information, try '--help'.\n"


def try_messages(program, document):
    """What a refused line says, whole."""
    for option, name, value, most in OUT_OF_RANGE:
        message = "error: invalid value '%s' for '%s <%s>': %s is not in 1..=%d" % (
            value, option, name, value, most)
        program.expect("out of range", ["run", option, value], document, b"", 2,
                       message.encode() + TRY_HELP)
    program.expect("no number", ["run", "--workers", "two"], document, b"", 2,
                   b"error: invalid value 'two' for '--workers <N>': "
                   b"invalid digit found in string" + TRY_HELP)
    # What can't be shown of a word is shown as bytes. No message says to pass an option as a value.
    for words, message in (
            ([b"\xff"], b"unrecognized subcommand '\\xff'"),
            ([b"go\x1b[1m\n"], b"unrecognized subcommand 'go\\x1b[1m\\x0a'"),
            ([b"run", b"--cut", b"\xc2\x85"], b"invalid value '\\xc2\\x85' for '--cut <K>'"),
            ([b"run", b"--fast"], b"unexpected argument '--fast' found\n\nUsage: "),
            ([b"run", b"--audits"], b"unexpected argument '--audits' found\n\n  tip: a similar argument exists")):
        out, status, err = program.run(words, document)
        program.compare("a refused word", words, (out, status, err[:len(b"error: " + message)]),
                        (b"", 2, b"error: " + message))


def try_help(program):
    for words in (["--help"], ["help"], ["run", "--help"], ["locate", "--help"],
                  ["help", "locate"]):
        out, status, err = program.run(words)
        program.compare("help", words, (out != b"", status, err),
                        (True, 0, b""))
    help_of_help = program.run(["help", "help"])[0]
    program.compare("help on help has its usage", ["help", "help"],
                    (b" help [COMMAND]..." in help_of_help,), (True,))
    for flag in ("-h", "--help"):
        program.expect("help on help", ["help", flag], b"", help_of_help)
    for flag in ("-V", "--version"):
        program.expect("the version", [flag], b"", b"ordtx 1.0.0\n")
        for command in ("run", "serial", "carry", "check", "locate"):
            program.expect("the version", [command, flag], b"",
                           b"ordtx-%s 1.0.0\n" % command.encode())


def try_all(program, case):
    document = case.with_suffix(".json").read_bytes()
    report = case.with_suffix(".report").read_bytes()
    file = str(case.with_suffix(".json"))
    for words in REFUSED:
        got = program.run(words, document)
        program.compare("a refused line", words, got[:2], (b"", 2))
        program.compare("a refused line says why", words,
                        (got[2] != b"",), (True,))
    program.expect("a file", ["run", file], b"", report)
    program.expect("standard input by name", ["run", "-"], document, report)
    program.expect("a file, options after it",
                   ["run", file, "--workers", "64", "--cut", "1000"], b"", report)
    program.expect("options before a file",
                   ["run", "--workers=2", "--cut=1", file], b"", report)
    for number in ("1", "33", "63", "+64"):
        program.expect("a number in range",
                       ["run", "--workers", number, "--cut", number, file], b"", report)
    for command in ("check", "locate"):
        program.expect("a file", [command, file], b"",
                       case.with_suffix(".check").read_bytes())
    program.expect("workers that read", ["check", "--workers", "64", file], b"",
                   case.with_suffix(".check").read_bytes())
    program.expect("workers that render", ["serial", file, "--workers=3"], b"",
                   report[:report.rindex(b"rounds ")])
    try_messages(program, document)
    try_help(program)
