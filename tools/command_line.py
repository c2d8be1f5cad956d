"""How the tools open their input and output, and how they end."""

import sys


class Failure(Exception):
    """Ends the tool with its text as the message and status 1."""


def open_input(name):
    return sys.stdin.buffer if name == "-" else open(name, "rb")


def open_output(mode):
    """Standard output with a buffer of its own: sys.stdout has none where PYTHONUNBUFFERED is set, and is then slow."""
    return open(sys.stdout.fileno(), mode, closefd=False)


def run(tool, main):
    """Messages are one line. A reader that has gone, as in `| head`, ends the tool quietly."""
    try:
        main()
    except Failure as failure:
        sys.exit(f"{tool}: {failure}")
    except BrokenPipeError:
        pass
    except OSError as error:
        sys.exit(f"{tool}: {error.filename or 'input or output'}: {error.strerror}")
    except KeyboardInterrupt:
        sys.exit(130)
