"""Adapters that read many files: their names come on standard input, and after each file stands a line `# status N WHY`."""

import os
import sys
import tempfile


def run(read):
    """`read` is called with each name in a process of its own, so a crash ends no more than that, and what is loaded is loaded once."""
    if len(sys.argv) > 1:
        sys.exit(read(sys.argv[1]))
    for name in sys.stdin:
        with tempfile.TemporaryFile() as said:
            status = status_of(read, name.rstrip("\n"), said)
            said.seek(0)
            why = said.read().decode("utf-8", "replace").strip().split("\n")[-1]
        print(f"# status {status} {why}", flush=True)


def status_of(read, name: str, said) -> int:
    """The status of a process that reads the file; what it says on standard error goes to `said`. Below zero: a signal."""
    sys.stdout.flush()
    child = os.fork()
    if child == 0:
        os.dup2(said.fileno(), 2)
        status = child_status(read, name)
        sys.stdout.flush()
        sys.stderr.flush()
        os._exit(status)
    _, ended = os.waitpid(child, 0)
    return os.waitstatus_to_exitcode(ended)


def child_status(read, name: str) -> int:
    try:
        return read(name)
    except BaseException as error:
        print(f"{type(error).__name__}: {error}", file=sys.stderr)
        return 1
