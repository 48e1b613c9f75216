"""How the commands here read what they are given, and how they end: by an exit status and, where something is
wrong, one line on standard error."""
import os
import sys

REFUSED, NOT_DONE, INTERRUPTED = 3, 4, 130
# No listing and no program file is as long; a device that never ends is not read to its end.
LONGEST = 1 << 20


class Refused(Exception):
    """What was given is not what it should be: where, what, and what to do, in one line."""


class NotDone(Exception):
    """Why nothing could be done, in one line."""


def shown(text):
    """The text as a message can show it: in one line, nothing that a terminal obeys, nothing endless."""
    plain = "".join(sign if sign.isprintable() else sign.encode("unicode_escape").decode() for sign in str(text))
    return plain if len(plain) <= 100 else plain[:100] + " .."


def name_of(path):
    """What messages call an input, - being standard input."""
    return "standard input" if path == "-" else shown(path)


def read(path):
    """The input's bytes; of more than LONGEST the first LONGEST and one more."""
    try:
        if path != "-":
            with open(path, "rb") as file:
                return file.read(LONGEST + 1)
        if sys.stdin is None:
            raise NotDone("standard input is closed: give a file, or something to read")
        return sys.stdin.buffer.read(LONGEST + 1)
    except OSError as why:
        raise NotDone(f"{name_of(path)}: cannot be read: {why.strerror}; give the path of a file, or - for standard "
                      "input") from None


def say(line):
    print(line, file=sys.stderr, flush=True)


def run(main, manual):
    """Ends the process with the status of the command's main, which is given the arguments."""
    name, arguments = os.path.basename(sys.argv[0]), sys.argv[1:]
    try:
        if arguments in (["--help"], ["-h"]):
            print(manual.strip())
            status = 0
        else:
            status = main(arguments)
        if sys.stdout:
            sys.stdout.flush()
    except Refused as why:
        say(why)
        status = REFUSED
    except NotDone as why:
        say(f"{name}: {why}")
        status = NOT_DONE
    except KeyboardInterrupt:
        say(f"{name}: interrupted")
        status = INTERRUPTED
    except OSError as why:
        # A reader that has gone away, as head does, is no news to anybody.
        if not isinstance(why, BrokenPipeError):
            say(f"{name}: {shown(why.filename or 'standard output')}: {why.strerror}")
        os.dup2(os.open(os.devnull, os.O_WRONLY), 1)
        status = NOT_DONE
    sys.exit(status)
