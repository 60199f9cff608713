"""Input and output that give and take little, or fail."""

import os
import subprocess
import tempfile

COMMANDS = ("run", "serial", "carry", "check", "locate")
NO_INPUT = b"fault 21 transaction 0\n"
NO_OUTPUT = b"fault 22 transaction 0\n"


def try_slow_input(program, document, report):
    child = subprocess.Popen([program.path, "run"], stdin=subprocess.PIPE,
                             stdout=subprocess.PIPE, stderr=subprocess.PIPE)
    for place in range(len(document)):
        child.stdin.write(document[place:place + 1])
        child.stdin.flush()
    out, err = child.communicate(timeout=60)
    program.compare("a byte at a time", ["run"], (out, child.returncode, err),
                    (report, 0, b""))


def try_failing_input(program):
    with tempfile.TemporaryDirectory() as folder:
        absent = os.path.join(folder, "absent")
        for name, file, message in (
                ("an absent file", absent, "ordtx: cannot open '%s': "
                 "No such file or directory (os error 2)\n" % absent),
                ("a folder", folder, "ordtx: cannot read '%s': "
                 "Is a directory (os error 21)\n" % folder)):
            for command in COMMANDS:
                program.expect(name, [command, file], b"", b"", 1,
                               message.encode() + NO_INPUT)
        if os.geteuid() != 0:
            file = os.path.join(folder, "unreadable")
            with open(file, "wb"):
                os.chmod(file, 0)
            message = ("ordtx: cannot open '%s': "
                       "Permission denied (os error 13)\n" % file)
            program.expect("an unreadable file", ["run", file], b"", b"", 1,
                           message.encode() + NO_INPUT)
    with open(os.devnull, "wb") as unreadable:
        done = subprocess.run([program.path, "run"], stdin=unreadable,
                              stdout=subprocess.PIPE, stderr=subprocess.PIPE)
        message = b"ordtx: cannot read standard input: Bad file descriptor (os error 9)\n"
        program.compare("input that can't be read", ["run"],
                        (done.stdout, done.returncode, done.stderr),
                        (b"", 1, message + NO_INPUT))


def try_file_names(program, document, report):
    """A file's name is any text. What can't be shown of a name is shown as bytes, and one that is no text is refused."""
    with tempfile.TemporaryDirectory() as folder:
        for name, shown in (
                (b"a b", "a b"), ("äöü".encode(), "äöü"), (b"a\n\x1b[1m\x7f", "a\\x0a\\x1b[1m\\x7f"),
                (b"\xc2\x85", "\\xc2\\x85"), (b"\xff", "\\xff"), (b"a\xc3", "a\\xc3"), (b"\xe4\xf6.json", "\\xe4\\xf6.json"),
                (bytes(byte for byte in range(1, 256) if byte != ord("/")), None)):
            file = os.path.join(folder.encode(), name)
            absent = "No such file or directory (os error 2)"
            try:
                name.decode()
            except UnicodeDecodeError:
                absent = "the name is not UTF-8: give the file as standard input"
            message = ("ordtx: cannot open '%s/%s': %s\n" % (folder, shown, absent)).encode() + NO_INPUT
            program.expect("an absent file of any name", ["run", file], b"", b"", 1, message if shown else None)
            with open(file, "wb") as out:
                out.write(document)
            if "UTF-8" in absent:
                program.expect("a file whose name is no text", ["run", file], b"", b"", 1, message if shown else None)
            else:
                program.expect("a file of any name", ["run", file], b"", report)
            with open(file, "rb") as given:
                done = subprocess.run([program.path, "run", "-"], stdin=given, stdout=subprocess.PIPE, stderr=subprocess.PIPE)
            program.compare("a file of any name as standard input", ["run", "-"], (done.stdout, done.returncode, done.stderr), (report, 0, b""))


def try_failing_output(program, document):
    for command in COMMANDS:
        with open("/dev/full", "wb") as full:
            done = subprocess.run([program.path, command], input=document,
                                  stdout=full, stderr=subprocess.PIPE)
        program.compare("a full device", [command],
                        (done.returncode, done.stderr), (1, NO_OUTPUT))
        done = subprocess.run([program.path, command], input=document,
                              stderr=subprocess.PIPE,
                              preexec_fn=lambda: os.close(1))
        program.compare("a closed output", [command],
                        (done.returncode, done.stderr), (1, NO_OUTPUT))


def try_limited_output(program, words, document, report):
    """A file that takes so many bytes and no more."""
    import resource
    import signal

    def limit(size):
        def begin():
            signal.signal(signal.SIGXFSZ, signal.SIG_IGN)
            resource.setrlimit(resource.RLIMIT_FSIZE, (size, size))
        return begin

    for size in range(len(report)):
        with tempfile.TemporaryFile() as out:
            done = subprocess.run([program.path, *words], input=document,
                                  stdout=out, stderr=subprocess.PIPE,
                                  preexec_fn=limit(size))
            out.seek(0)
            program.compare("output that takes %d bytes" % size, words,
                            (out.read(), done.returncode, done.stderr),
                            (report[:size], 1, NO_OUTPUT))


def try_all(program, case):
    document = case.with_suffix(".json").read_bytes()
    report = case.with_suffix(".report").read_bytes()
    try_slow_input(program, document, report)
    try_failing_input(program)
    try_file_names(program, document, report)
    try_failing_output(program, document)
    try_limited_output(program, ["run"], document, report)
    try_limited_output(program, ["locate"], b"{", b"fault 1 transaction 0 at line 1 column 1\nthis cannot be read as JSON\n")
