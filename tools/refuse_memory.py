#!/usr/bin/env python3
"""Refuses each growth of memory of a run in turn.

    tools/refuse_memory.py PROGRAM [SCENARIO..]

PROGRAM is a built bpfmem, and the scenarios are files; without any, those of examples/. Each is replayed once as it is, and then once for each
time that the program asks the C library for memory, by `malloc` or `realloc`, which is refused that once. Each such run has to end with status
4, the one line for want of memory and nothing on standard output, or with the status and the output of the run without a refusal. A library that stands
in front of the C library's refuses; `cc` compiles it. The status is 0 where all is so, 1 where not.
"""

import os
import subprocess
import sys
import tempfile
from pathlib import Path

EXAMPLES = Path(__file__).resolve().parent.parent / "examples"

# Refuses the request whose number REFUSED names, from 1, and says so by a byte in the pipe of descriptor TOLD.
REFUSER = r"""
#define _GNU_SOURCE
#include <dlfcn.h>
#include <errno.h>
#include <stdlib.h>
#include <unistd.h>

static unsigned long asked;

static int refused(void) {
    const char *number = getenv("REFUSED");
    if (number == NULL || ++asked != strtoul(number, NULL, 10))
        return 0;
    if (write(atoi(getenv("TOLD")), "", 1) != 1)
        _exit(99);
    errno = ENOMEM;
    return 1;
}

void *malloc(size_t size) {
    static void *(*next)(size_t);
    if (next == NULL)
        next = (void *(*)(size_t))dlsym(RTLD_NEXT, "malloc");
    return refused() ? NULL : next(size);
}

void *realloc(void *old, size_t size) {
    static void *(*next)(void *, size_t);
    if (next == NULL)
        next = (void *(*)(void *, size_t))dlsym(RTLD_NEXT, "realloc");
    return refused() ? NULL : next(old, size);
}
"""

OUT_OF_MEMORY = (4, b"", b"bpfmem: out of memory\n")

Answer = tuple[int, bytes, bytes]


def replay(program: str, text: bytes, more: dict[str, str], descriptors: tuple[int, ...] = ()) -> Answer:
    """Status, standard output and standard error of one run."""
    ran = subprocess.run(
        [program, "replay"], input=text, capture_output=True, check=False, env=os.environ | more, pass_fds=descriptors
    )
    return ran.returncode, ran.stdout, ran.stderr


def refuse(program: str, library: str, text: bytes, number: int) -> Answer | None:
    """The run whose request of this number is refused; None where it asks less often."""
    reader, writer = os.pipe()
    try:
        more = {"LD_PRELOAD": library, "REFUSED": str(number), "TOLD": str(writer)}
        answer = replay(program, text, more, (writer,))
    finally:
        os.close(writer)
        told = os.read(reader, 1)
        os.close(reader)
    return answer if told else None


def try_scenario(program: str, library: str, path: Path) -> bool:
    """Whether each refusal in a run of the scenario is answered as it has to be."""
    text = path.read_bytes()
    whole = replay(program, text, {})
    number, failed, bad = 0, 0, 0
    while (answer := refuse(program, library, text, number + 1)) is not None:
        number += 1
        failed += answer == OUT_OF_MEMORY
        if answer not in (OUT_OF_MEMORY, whole):
            bad += 1
            print(f"{path.name}: request {number} refused: status {answer[0]}, {answer[2].decode(errors='replace')!r}")
    print(f"{path.name}: status {whole[0]}, {number} requests, {failed} refusals end in status 4, {bad} are wrong")
    return number > 0 and bad == 0


def main() -> int:
    if len(sys.argv) < 2 or sys.argv[1].startswith("-"):
        sys.exit(__doc__)
    program = os.path.abspath(sys.argv[1])
    paths = [Path(word) for word in sys.argv[2:]] or sorted(EXAMPLES.glob("*.scenario"))
    with tempfile.TemporaryDirectory() as folder:
        source, library = Path(folder) / "refuser.c", str(Path(folder) / "refuser.so")
        source.write_text(REFUSER)
        subprocess.run(["cc", "-O1", "-shared", "-fPIC", "-o", library, str(source), "-ldl"], check=True)
        right = [try_scenario(program, library, path) for path in paths]
    return 0 if all(right) else 1


if __name__ == "__main__":
    sys.exit(main())
