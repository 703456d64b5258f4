"""What the tests of the program's words have in common: the program and the folder that are given as arguments, and one comparison of both outputs.

The arguments are PROGRAM FOLDER FAILING: FOLDER holds the journals j, field, undeclared and silent, j as text and its listing; FAILING is a library to
preload under which the second read of standard input fails."""
import os
import pathlib
import subprocess
import sys

PROGRAM, FOLDER, FAILING = sys.argv[1], pathlib.Path(sys.argv[2]), sys.argv[3]
J = (FOLDER / "j.journal").read_bytes()
USAGE = "usage: yearbook [replies | run | page | narrow] [FILE] | yearbook help\n"
# the longest input, J and closes that are refused, and what is said of a longer one
FULL = J + b"CL\0\0" * ((65536 - len(J)) // 4)
assert len(FULL) == 65536
LONG = "yearbook: input longer than 65536 bytes, nothing read\n"
# the names of what was tried
tried = []


def file(name):
    return str(FOLDER / name)


def expect(name, words, output, said, given=b"", closed=None, to=subprocess.PIPE, preload=None, status=0):
    """both outputs of a run, the first one text or bytes, with these words on a given input, bytes or a descriptor"""
    tried.append(name)
    environment = dict(os.environ, LD_PRELOAD=preload) if preload else None
    source = {"input": given} if isinstance(given, bytes) else {"stdin": given}
    run = subprocess.run(
        [PROGRAM, *words], stdout=to, stderr=subprocess.PIPE, env=environment, preexec_fn=None if closed is None else lambda: os.close(closed), **source
    )
    wanted = output.encode() if isinstance(output, str) else output
    got = run.stdout or b"", run.stderr.decode()
    # the status as a shell tells it, of a program that a signal ended too
    told = run.returncode if run.returncode >= 0 else 128 - run.returncode
    if got != (wanted, said) or told != status:
        got, wanted = (got[0].decode(errors="replace"), got[1]), wanted.decode(errors="replace")
        sys.exit(f"test-desk: FAILED, {name}, status {told}:\n{got[0]}--- standard error\n{got[1]}--- wanted\n{wanted}--- standard error\n{said}")
