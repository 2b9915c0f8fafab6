"""The command line."""

import os
import shutil
import subprocess
import sys
import tempfile
from pathlib import Path

from .check import Case, equal, has
from .made import EXAMPLES, GONE_10, TOOL, read


def call(*arguments, given=b"", tool=TOOL, folder=None):
    command = [sys.executable, str(tool), *map(str, arguments)]
    return subprocess.run(command, input=given, capture_output=True, timeout=60, cwd=folder)


def result(answer):
    return answer.returncode, answer.stdout, answer.stderr


def assembling():
    with tempfile.TemporaryDirectory() as folder:
        made = Path(folder) / "made.job"
        answer = call("assemble", EXAMPLES / "register.txt", "-o", made)
        yield equal("assemble to a file", result(answer), (0, b"", b""))
        yield equal("the file", made.read_bytes(), read("register", "job"))
        answer = call("assemble", "-", "-o", made, given=b"settings format bf16\nissue 0 NOP\n")
        message = b"line 2: there is no instruction NOP"
        yield equal("bad text", (answer.returncode, answer.stderr[: len(message)]), (1, message))
        yield equal("a bad text leaves the file", made.read_bytes(), read("register", "job"))
    answer = call("assemble", given=read("shift", "txt"))
    yield equal("assemble by pipe", (answer.returncode, answer.stdout), (0, read("shift", "job")))
    answer = call("assemble", given=b"settings format bf16\n")
    yield equal("a wrong shape is assembled", answer.returncode, 0)
    yield has("a note on a wrong shape", answer.stderr, b"note: the job's shape is wrong at 163")


def listing():
    answer = call("list", EXAMPLES / "register.job")
    yield has("list", answer.stdout, b"issue 0 BITWOPDMAREG xor r3 r1 5", b"# at 172, 0x5b883141")
    explained = call("explain", EXAMPLES / "refused_8.job", 8, 180)
    yield has("explain", explained.stdout, b"# ^^^ refused 8 at 180", b"register 4 of thread 0 is unset")
    answer = call("list", "-", "--refused", "refused 8 at 180", given=read("refused_8", "job"))
    yield equal("list --refused", (answer.returncode, answer.stdout), (0, explained.stdout))
    explained = call("explain", EXAMPLES / "refused_3.job", 3, 186, 16)
    parts = b"# ^^^ refused 3 at 186 bit 16: ", b"; nearest is 15:14 slot, one bit below\n", b"do:  clear bit 16\n"
    yield has("explain with a bit", explained.stdout, *parts)
    answer = call("list", "-", "--refused", "refused 3 at 186 bit 16\n", given=read("refused_3", "job"))
    yield equal("list --refused with a bit", result(answer), (0, explained.stdout, b""))
    answer = call("explain", EXAMPLES / "refused_3.job", 3, 186)
    yield equal("a refusal 3 without its bit", (answer.returncode, answer.stdout.count(b"but: ")), (0, 1))
    answer = call("explain", EXAMPLES / "refused_3.job", 3, 186, 17)
    yield equal("a refusal 3 with another bit", (answer.returncode, answer.stdout.count(b"but: ")), (0, 2))
    answer = call("explain", EXAMPLES / "refused_8_shift.job", 8, 1224)
    message = b"rows 16 to 31 of bank 0 of SrcA are unset; the last SrcA row is 16, which CONV3S1 left"
    yield has("explain a last SrcA row", answer.stdout, message)
    answer = call("explain", EXAMPLES / "refused_6_kept.job", 6, 198)
    yield has("explain a kept bank", answer.stdout, b"; the clear at 190 kept it, as keep=a in the settings says\n")
    answer = call("explain", EXAMPLES / "register.job", 8, 180)
    yield has("a refusal of another file", answer.stdout, b"is it the file that was run?")


def wrong_calls():
    for arguments in (
        ("list", EXAMPLES / "no such file"),
        ("list", EXAMPLES),
        ("explain", EXAMPLES / "register.job", 8, 181),
        ("explain", EXAMPLES / "register.job", 11, 180),
        ("explain", EXAMPLES / "register.job", 0, 180),
        ("explain", EXAMPLES / "register.job", "x", "y"),
        ("list", EXAMPLES / "register.job", "--refused", "finished 1"),
        ("explain", EXAMPLES / "refused_8.job", 8, 180, 0),
        ("list", EXAMPLES / "refused_8.job", "--refused", "refused 8 at 180 bit 0"),
        ("explain", EXAMPLES / "refused_3.job", 3, 186, 24),
        ("explain", EXAMPLES / "refused_3.job", 3, 186, -1),
        ("explain", EXAMPLES / "refused_3.job", 3, 186, ""),
    ):
        answer = call(*arguments)
        told = answer.returncode == 1 and bool(answer.stderr.strip()) and b"Traceback" not in answer.stderr
        yield Case(f"{arguments[0]} {arguments[2:]} is told what is wrong", told, result(answer), "1 and a message")


def gone():
    """A number that left the table is turned down, wherever it is said to be and whatever the file is."""
    message = f"{GONE_10}\n".encode()
    for name in ("register", "refused_7"):
        job = EXAMPLES / f"{name}.job"
        for place in (0, 163, 172, 9999):
            yield equal(f"explain {name} 10 {place}", result(call("explain", job, 10, place)), (1, b"", message))
            answer = call("list", job, "--refused", f"refused 10 at {place}\n")
            yield equal(f"{name} refused 10 at {place}", result(answer), (1, b"", message))


def places():
    """The tool finds its modules by whatever path it is called, and writes nothing beside them."""
    wanted = result(call("list", EXAMPLES / "register.job"))
    with tempfile.TemporaryDirectory() as folder:
        tools = Path(folder) / "tools"
        shutil.copytree(TOOL.parent, tools)
        before = sorted(tools.rglob("*"))
        link = Path(folder) / "link"
        os.symlink(Path("tools") / "job", link)
        for name, tool, start in (("a relative path", "job", tools), ("a link", link, "/"), ("a relative link", "link", folder)):
            answer = call("list", EXAMPLES / "register.job", tool=tool, folder=start)
            yield equal(f"called by {name}", result(answer), wanted)
        yield equal("nothing is written beside the tool", sorted(tools.rglob("*")), before)


GROUPS = (assembling, listing, wrong_calls, gone, places)
