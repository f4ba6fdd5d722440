"""Tests of what other tools read: examples/benchexec/sygus.py, called as BenchExec calls it, by stand-ins for what it
imports; the lines of Python in docs/FOR_TOOLS.md; and tools/install, by a stand-in for the program."""
import importlib.util
import os
import pathlib
import re
import subprocess
import sys
import tempfile
import types

TOP = pathlib.Path(__file__).resolve().parent.parent.parent
PAGE = TOP / "docs" / "FOR_TOOLS.md"
TWO = "(\n(define-fun f ((x Int)) Int (+ x |a b|))\n(define-fun g () Bool true)\n)\n"
# Stands for the program: it prints two definitions, and then a reply that is cut off.
PROGRAM = f"#!/bin/sh\nfor file; do :; done\ncat <<'END'\n{TWO}infeasible\nfail\n(\n(define-fun f ((x\nEND\nexit 1\n"
# The status of a run, its output with both streams, and the result and the column `cause`.
ENDS = [
    (0, TWO, "true", None),
    (0, "", "true", None),
    (0, TWO + "infeasible\n", "false(infeasible)", None),
    (1, "fail\nfail: check-synth 1 Bank\n", "unknown", "Bank"),
    (2, "refused: command 1 line 1 column 12 cause 4 Logic\n", "ERROR (file refused)", "Logic"),
    (2, "refused: command 1 line 1 column 1 cause 1 Text BadByte\n", "ERROR (file refused)", "Text BadByte"),
    (3, "refused: words\n", "ERROR (command line refused)", None),
    (6, "want of memory\n", "ERROR (out of memory)", None),
    (None, "(\n", "ERROR", None),
]


def imported(path):
    """The tool-info module, with stand-ins for the modules of BenchExec that it imports."""
    names = ["benchexec", "benchexec.result", "benchexec.tools", "benchexec.tools.template"]
    modules = {name: types.ModuleType(name) for name in names}
    package, result, tools, template = modules.values()
    package.result, package.tools, tools.template = result, tools, template
    result.RESULT_TRUE_PROP, result.RESULT_FALSE_PROP, result.RESULT_UNKNOWN, result.RESULT_ERROR = (
        "true",
        "false",
        "unknown",
        "ERROR",
    )
    template.BaseTool2 = type("BaseTool2", (), {"version": lambda self, executable: ""})
    sys.modules.update(modules)
    try:
        spec = importlib.util.spec_from_file_location("tool_info", path)
        module = importlib.util.module_from_spec(spec)
        spec.loader.exec_module(module)
    finally:
        for name in names:
            del sys.modules[name]
    return module


class Locator:
    """Stands for BenchExec's search of a program."""

    def find_executable(self, name, subdir=""):
        return f"/opt/sygus/{subdir}/{name}"


def benchexec():
    """The calls of BenchExec, in its order: where the program is, its version and name, the command line, what came of
    the run, a column.
    """
    tool = imported(TOP / "examples" / "benchexec" / "sygus.py").Tool()
    executable = tool.executable(Locator())
    task = types.SimpleNamespace(single_input_file="problem.sl")
    words = tool.cmdline(executable, ["--size", "20"], task, types.SimpleNamespace(cputime=60))
    yield "BenchExec: the call", (tool.name(), tool.version(executable), words) == (
        "sygus",
        "",
        ["/opt/sygus/bin/sygus", "--size", "20", "--", "problem.sl"],
    )
    for status, output, wanted, cause in ENDS:
        run = types.SimpleNamespace(
            exit_code=types.SimpleNamespace(value=status, signal=None if status is not None else 9),
            output=output.splitlines(),
        )
        yield f"BenchExec: {wanted} {cause or ''}", (
            tool.determine_result(run),
            tool.get_value_from_output(run.output, "cause"),
        ) == (wanted, cause)


def read_page():
    """The lines of Python in docs/FOR_TOOLS.md read the answers of a program on the path, also where the last is cut
    off.
    """
    text = PAGE.read_text()
    lines = "\n".join(
        line[4:] for line in text[text.index("    import re, subprocess") : text.index("prints `{")].splitlines()
    )
    with tempfile.TemporaryDirectory() as folder:
        installed(folder)
        env = {**os.environ, "PATH": f"{folder}:{os.environ['PATH']}"}
        ended = subprocess.run([sys.executable, "-c", lines], env=env, capture_output=True, text=True)
    wanted = "{'f': ([['x', 'Int']], ['+', 'x', '|a b|']), 'g': ([], 'true')}\ninfeasible\nfail\n"
    yield "FOR_TOOLS.md: lines of Python", (ended.stdout, ended.stderr) == (wanted, "")
    yield "FOR_TOOLS.md: statuses", {int(it) for it in re.findall(r"^\| (\d) \|", text, re.M)} >= set(range(7))


def installed(folder):
    program = pathlib.Path(folder) / "sygus"
    program.write_text(PROGRAM)
    program.chmod(0o755)
    return program


def install():
    """What is installed runs from there, with what it reads, also by a link and from another folder."""
    with tempfile.TemporaryDirectory() as folder, tempfile.TemporaryDirectory() as prefix:
        env = {**os.environ, "SYGUS": str(installed(folder))}
        ended = subprocess.run([TOP / "tools" / "install", prefix], env=env, capture_output=True, text=True)
        yield "install", ended.returncode == 0 and (
            pathlib.Path(prefix) / "share" / "man" / "man1" / "sygus.1"
        ).is_file()
        link = pathlib.Path(folder) / "explained"
        link.symlink_to(pathlib.Path(prefix) / "bin" / "sygus-explain")
        env = {name: value for name, value in os.environ.items() if name != "SYGUS"}
        for call in (pathlib.Path(prefix) / "bin" / "sygus-explain", link):
            ended = subprocess.run(
                [call, "--size", "3", TOP / "examples" / "first.sl"],
                cwd=folder,
                env=env,
                capture_output=True,
                text=True,
            )
            is_said = "infeasible:\n  No candidate" in ended.stdout and "Traceback" not in ended.stderr
            yield f"install: {call.name}", ended.returncode == 1 and is_said
        ended = subprocess.run([TOP / "tools" / "install"], capture_output=True, text=True)
        yield "install: no folder", ended.returncode == 3
        ended = subprocess.run(
            [TOP / "tools" / "install", "/dev/null/there"],
            env={**env, "SYGUS": str(installed(folder))},
            capture_output=True,
            text=True,
        )
        yield "install: no such folder", ended.returncode not in (0, 3)


def tests():
    yield from benchexec()
    yield from read_page()
    yield from install()
