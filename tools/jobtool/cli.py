"""The commands assemble, list and explain."""

import argparse
import os
import sys

from .fields import split
from .listing import listing
from .refusals import Answer, answer_of
from .rules import shape_fault
from .text import assemble
from .wrong import Wrong


def read_file(name):
    if name == "-":
        if sys.stdin is None:
            raise Wrong("standard input is closed")
        return sys.stdin.buffer.read()
    with open(name, "rb") as file:
        return file.read()


def write_out(data):
    if sys.stdout is None:
        raise Wrong("standard output is closed")
    sys.stdout.buffer.write(data)
    sys.stdout.buffer.flush()


def assemble_command(source, target):
    job = assemble(read_file(source).decode("utf-8", "replace"))
    if target not in (None, "-"):
        with open(target, "wb") as file:
            file.write(job)
    elif sys.stdout is not None and sys.stdout.isatty():
        raise Wrong("a job file is no text for a terminal: give -o OUT.job")
    else:
        write_out(job)
    fault = shape_fault(split(job), len(job))
    if fault:
        print(f"note: the job's shape is wrong at {fault.place}: {fault.why}", file=sys.stderr)


def arguments():
    parser = argparse.ArgumentParser(prog="job", description="Job files as text; README.md beside this tool has the text form.")
    commands = parser.add_subparsers(dest="command", required=True, metavar="assemble | list | explain")
    one = commands.add_parser("assemble", help="text to a job file")
    one.add_argument("text", nargs="?", default="-", metavar="IN.txt", help="the text; - or none is standard input")
    one.add_argument("-o", dest="out", metavar="OUT.job", help="the job file; none is standard output")
    one = commands.add_parser("list", help="a job file as text")
    one.add_argument("job", metavar="FILE.job", help="the job file; - is standard input")
    one.add_argument("--refused", metavar="LINE", help='point at the field of "refused 8 at 180", or "refused 3 at 172 bit 16"')
    one = commands.add_parser("explain", help="a job file as text, pointing at the field of `refused N at P [bit BIT]`")
    one.add_argument("job", metavar="FILE.job", help="the job file; - is standard input")
    one.add_argument("number", metavar="N", help="the number of the refusal")
    one.add_argument("place", metavar="P", help="its place")
    one.add_argument("bit", nargs="?", metavar="BIT", help="its bit, which only a refusal 3 has")
    return parser.parse_args()


def run(given):
    if given.command == "assemble":
        return assemble_command(given.text, given.out)
    line = str(Answer(given.number, given.place, given.bit)) if given.command == "explain" else given.refused
    answer = None if line is None else answer_of(line)
    write_out(listing(read_file(given.job), answer).encode())


def main():
    try:
        run(arguments())
        return 0
    except Wrong as wrong:
        print(wrong, file=sys.stderr)
    except BrokenPipeError:
        # The reader has seen enough; nothing is left to flush at exit.
        os.dup2(os.open(os.devnull, os.O_WRONLY), 1)
    except OSError as error:
        print(f"{error.filename or 'standard input or output'}: {error.strerror or error}", file=sys.stderr)
    except KeyboardInterrupt:
        pass
    return 1
