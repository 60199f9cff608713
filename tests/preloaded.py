"""Runs a program with `refuse.c` loaded before it."""

import os
import pathlib
import subprocess
import tempfile

SOURCE = pathlib.Path(__file__).with_name("refuse.c")


def build(folder):
    """The path of the library, built in this folder."""
    library = os.path.join(folder, "refuse.so")
    compiler = os.environ.get("CC", "cc")
    subprocess.run([compiler, "-O2", "-shared", "-fPIC", "-o", library,
                    str(SOURCE), "-ldl"], check=True)
    return library


def counted(library, refused, words, path, document, together=False):
    """What the run returns whose Nth request for memory is refused (0: none), how many requests it made, how many threads
    it started, and for how many bytes it asked. Unless threads run together, each ends before the next is started."""
    with tempfile.TemporaryFile() as kept:
        kept.write(bytes(24))
        kept.flush()
        environment = dict(os.environ, LD_PRELOAD=library,
                           REFUSE=str(refused), COUNT=str(kept.fileno()))
        if together:
            environment["TOGETHER"] = "1"
        done = subprocess.run([path, *words], input=document,
                              stdout=subprocess.PIPE, stderr=subprocess.PIPE,
                              pass_fds=(kept.fileno(),), env=environment,
                              timeout=60)
        kept.seek(0)
        made, started, asked = (int.from_bytes(kept.read(8), "little")
                                for _ in range(3))
    return (done.stdout, done.returncode, done.stderr), made, started, asked


def run(library, refused, words, path, document, together=False):
    """The same without the bytes."""
    return counted(library, refused, words, path, document, together)[:3]
