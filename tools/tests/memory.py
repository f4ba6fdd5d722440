"""Runs of the program in each of which one allocation is refused: the first, then the second, and so on.

What stands between the program and the C library is compiled by `cc` and put in front by LD_PRELOAD. A run whose allocation was
refused ends by 6, with whole replies on the output, or by its own status; one that made fewer allocations ends as ever.
"""
import itertools
import pathlib
import shutil
import subprocess
import tempfile

from whole_runs import ANSWERED, RUNS

# Files, their words, and what is left of a run that is refused nothing.
ROWS = [*[(name, words, (0, answer, "")) for name, words, answer in ANSWERED], ("vector_above.sl", [], (0, "infeasible\n", ""))]
REFUSING = r"""
#include <errno.h>
#include <fcntl.h>
#include <stdlib.h>
#include <unistd.h>

extern void *__libc_malloc(size_t), *__libc_calloc(size_t, size_t), *__libc_realloc(void *, size_t), *__libc_memalign(size_t, size_t);

static long made;

static int is_refused(void) {
    const char *number = getenv("REFUSED"), *told = getenv("TOLD");
    if (!number || !told || ++made != atol(number)) return 0;
    int file = open(told, O_WRONLY | O_CREAT, 0600);
    if (file >= 0) close(file);
    errno = ENOMEM;
    return 1;
}

void *malloc(size_t size) { return is_refused() ? NULL : __libc_malloc(size); }
void *calloc(size_t count, size_t size) { return is_refused() ? NULL : __libc_calloc(count, size); }
void *realloc(void *old, size_t size) { return is_refused() ? NULL : __libc_realloc(old, size); }
void *aligned_alloc(size_t align, size_t size) { return is_refused() ? NULL : __libc_memalign(align, size); }
void *memalign(size_t align, size_t size) { return is_refused() ? NULL : __libc_memalign(align, size); }

int posix_memalign(void **to, size_t align, size_t size) {
    void *found = is_refused() ? NULL : __libc_memalign(align, size);
    if (found) *to = found;
    return found ? 0 : ENOMEM;
}
"""


def refused(program, words, number, room):
    """What is left of a run whose allocation of this number is refused, and whether it made so many."""
    told = room / "told"
    told.unlink(missing_ok=True)
    environment = {"LD_PRELOAD": str(room / "refusing.so"), "REFUSED": str(number), "TOLD": str(told)}
    ended = subprocess.run([program, *words], cwd=RUNS, env=environment, text=True, capture_output=True)
    return (ended.returncode, ended.stdout, ended.stderr), told.exists()


def is_right(left, own):
    """Out of memory before the one reply or behind it, or the end that the run has with all its memory."""
    return left == own or left[0] == 6 and left[1] in ("", own[1]) and left[2] in ("", "want of memory\n")


def tests(program):
    if not shutil.which("cc"):
        return
    with tempfile.TemporaryDirectory() as name:
        room = pathlib.Path(name)
        (room / "refusing.c").write_text(REFUSING)
        subprocess.run(["cc", "-shared", "-fPIC", "-O1", "-o", "refusing.so", "refusing.c"], cwd=room, check=True)
        for file, words, own in ROWS:
            wrong = None
            for number in itertools.count(1):
                left, was_refused = refused(program, [*words, file], number, room)
                if not (is_right(left, own) if was_refused else left == own):
                    wrong = number
                if wrong or not was_refused:
                    break
            yield f"{file} with allocation {wrong} refused" if wrong else f"{file} with each allocation refused", not wrong and number > 1
