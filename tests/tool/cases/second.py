"""The tool and the examples against the second program, which knows nothing of the tool."""

import subprocess

from jobtool.listing import listing

from . import paper
from .bits import offending_words, word_job
from .check import Case, equal
from .dst import edge_jobs, short
from .keep import made_jobs, switch_jobs
from .made import EXAMPLES, NAMES, NARROW, NARROW_KEPT, answer_of, assembled, has_bf16_dst, multiply_job, read


def prints(second, *arguments, given=b""):
    return subprocess.run([second, *arguments], input=given, capture_output=True, timeout=120).stdout.decode()


def answer_in(printed):
    """The whole answer that printed lines begin with, without the count of a finished job."""
    line = printed.partition("\n")[0]
    return "finished" if line.startswith("finished ") else line


def examples(second):
    for name in NAMES:
        printed = prints(second, "run", str(EXAMPLES / f"{name}.job"))
        yield equal(f"{name}.job prints {name}.out", printed, read(name, "out").decode())


def edges(second):
    for text, answer in edge_jobs():
        printed = prints(second, "run", "-", given=assembled(text))
        yield equal(f"{short(text)} prints {answer}", answer_in(printed), answer)
        width = 4 if text.startswith((NARROW, NARROW_KEPT)) else 8
        values = [value for line in printed.splitlines()[1:] for value in line.split()[2:]]
        other = [value for value in values if len(value) != width]
        yield equal(f"{short(text)} prints {width} digits", other, [])


def multiplies(second):
    for form in range(14):
        for flags in range(32):
            data = multiply_job(form, flags, 512 if has_bf16_dst(form, flags) else 0)
            printed = prints(second, "run", "-", given=data)
            yield equal(f"a multiply in {form} with flags {flags} is run", answer_in(printed), answer_of(data))


def bits(second):
    for name, _, word in offending_words():
        data = word_job(word)
        yield equal(f"{name} is run", prints(second, "run", "-", given=data), f"{answer_of(data)}\n")


def switches(second):
    for name, text, answer in switch_jobs():
        printed = prints(second, "run", "-", given=assembled(text))
        yield equal(f"{name} is run", answer_in(printed), answer)
    for n, data in enumerate(made_jobs()):
        yield equal(f"made job {n} is run", answer_in(prints(second, "run", "-", given=data)), answer_of(data))


def generated(second):
    lines = prints(second, "vectors", "7", "300").splitlines()
    kinds, keeps = set(), set()
    for n, line in enumerate(lines):
        digits, _, printed = line.replace("|", "\n").partition(" ")
        data = bytes.fromhex(digits)
        kinds.add((len(data) > 4 and has_bf16_dst(data[3], data[4]), printed[:9]))
        if printed.startswith("finished "):
            keeps.add("".join(letter for letter, bit in paper.SWITCHES.items() if data[4] >> bit & 1))
        own = answer_of(data)
        yield Case(f"generated job {n}", answer_in(printed) == own and printed.endswith("\n"), own, printed[:30])
        yield equal(f"generated job {n} listed and assembled", assembled(listing(data)), data)
    yield equal("300 generated jobs", len(lines), 300)
    wanted = {(bf16, start) for bf16 in (False, True) for start in ("finished ", "refused 1", "refused 8")}
    yield equal("both kinds of Dst among them", sorted(wanted - kinds), [])
    yield equal("each choice of switches among those that finish", sorted(keeps), ["", "a", "ab", "b"])
    yield equal("BF16 Dst is never refused 5 or 7", sorted(kinds & {(True, "refused 5"), (True, "refused 7")}), [])


GROUPS = (examples, edges, multiplies, bits, switches, generated)
