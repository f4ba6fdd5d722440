"""What the scripts share that run programs on problems: the problems and their comments, the program, and a run under limits."""
import collections
import glob
import os
import re
import signal
import subprocess
import sys

TOP = os.path.dirname(os.path.dirname(os.path.abspath(__file__)))
sys.path.insert(0, os.path.join(TOP, "tools"))
from sygus_client import Call, Missing, find_program

FOLDERS = ["examples", "examples/gallery", "examples/advice", "bench/problems"]
MEMORY = 6 << 30

# How a run ended: its status, that of a signal being below 0; its processor seconds; what it printed; its most memory in
# KiB; and whether it was ended for the time that it took.
Run = collections.namedtuple("Run", "status seconds output errors memory is_over")


def problems(named):
    """The files that are named, or, where none is, all problems of the repository."""
    return named or [file for folder in FOLDERS for file in sorted(glob.glob(f"{TOP}/{folder}/*.sl"))]


def name_of(file):
    """The name under which tables show a problem."""
    return os.path.basename(file).removesuffix(".sl")


def text_of(file):
    with open(file) as opened:
        return opened.read()


def line_of(text, label):
    """What a comment line `; LABEL: ..` of a problem says; nothing where there is none."""
    found = re.search(rf"^; {label}: (.*)$", text, re.MULTILINE)
    return found[1].strip() if found else ""


def words_of(text):
    """The words for `sygus` that stand in a problem."""
    return line_of(text, "words").split()


def sygus(given):
    """The program that is named, or the one that SYGUS names, or that of the repository, built before where it has to be."""
    try:
        return find_program(given)
    except Missing as missing:
        sys.exit(str(missing))


def measured(name):
    """The program of measurements of this name, which is proved and built before where it has to be."""
    if subprocess.run(["sh", "-c", 'top=$1 && . "$top/tools/build.sh" && build "$2"', "sh", TOP, name], stdin=subprocess.DEVNULL).returncode:
        sys.exit(1)
    return f"{TOP}/crates/{name}/out/{name}"


def run(words, limit=None):
    """Runs a program with at most so many processor seconds, where there is a limit, and 6 GB."""
    ended = Call(words, processor_time=limit, memory=MEMORY).result()
    status = 128 - ended.status if ended.status > 128 else ended.status
    # on a busy machine the limit's own signal may come before these seconds are counted
    is_over = limit is not None and (status == -signal.SIGXCPU or status < 0 and ended.processor_seconds > 0.99 * limit)
    return Run(status, ended.processor_seconds, ended.output, ended.errors, ended.memory, is_over)


def answer(ended):
    """What a run of `sygus` says, in a word: `definitions`, `infeasible` or `fail`, else `nothing`."""
    if ended.is_over:
        return "nothing"
    if re.search(r"^fail$", ended.output, re.MULTILINE):
        return "fail"
    if ended.output.startswith("infeasible"):
        return "infeasible"
    return "definitions" if "define-fun" in ended.output else "nothing"
