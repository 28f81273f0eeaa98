"""How the samples ask the proved library: by the program `vectors` (built by rt run < /dev/null in crates/vectors), which answers one call a line.

    with proved.started() as program:
        width, height, maxval, used, offset, length = proved.ask(program, "frame 1", "pgm", "503520312031203235352007")

Bytes are lower-case hex, `-` for none. Answers are words as vectors writes them.
"""
import os
import platform
import shutil
import subprocess
import sys
from pathlib import Path

ROOT = Path(__file__).resolve().parent.parent
# As in frozen: the largest score, and the largest difference at maxval 255 that does not count.
BOUND, ALLOWANCE = 600, 12
# No image or mask has more bytes.
LIMIT = 24576


def stop(message):
    """Ends the script that was started, with status 1."""
    sys.exit(f"{Path(sys.argv[0]).name}: {message}")


def command():
    """How `vectors` is run: on x86-64 as it is, and elsewhere as sample/frozen runs its program, by the emulator of rt's kit."""
    program = ROOT / "crates/vectors/out/vectors"
    if not program.exists():
        stop(f"the program vectors is not built; in {ROOT}/crates/vectors run: rt run < /dev/null")
    machine = platform.machine()
    if machine == "x86_64":
        return [program]
    kit = os.environ.get("RATTLE_HOME")
    if not kit:
        rt = shutil.which("rt") or stop(f"vectors is for x86-64, and rt, which has an emulator for {machine} beside it, is not on the PATH")
        kit = Path(rt).resolve().parent.parent
    tools = Path(kit) / "on" / machine / "toolchain"
    if not (tools / "bin/qemu-x86_64").exists():
        stop(f"vectors is for x86-64, and the kit at {kit} has no emulator for {machine}")
    return [tools / "bin/qemu-x86_64", tools / "lib/ld-linux-x86-64.so.2", "--library-path", tools / "lib", program]


def started():
    return subprocess.Popen(command(), stdin=subprocess.PIPE, stdout=subprocess.PIPE, text=True)


def call(program, *words):
    """The refusal, 0 for none, and the words of the answer behind it."""
    print(*words, file=program.stdin, flush=True)
    answer = program.stdout.readline().split()
    if not answer or answer[0] == "?":
        stop(f"vectors does not answer the call {words[0]}; build it anew: rt run < /dev/null, in crates/vectors")
    return int(answer[0]), answer[1:]


def ask(program, of, *words):
    """The words of the answer behind its refusal, which must be 0."""
    refusal, answer = call(program, *words)
    if refusal:
        stop(f"{of} is refused with {refusal}")
    return answer
