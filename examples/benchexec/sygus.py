"""Tool-info module of BenchExec (3, BaseTool2) for sygus.

Put this file into a folder NAME on Python's path, beside an empty __init__.py, and name it by tool="NAME.sygus" in a
benchmark definition; or into benchexec/tools/ of an installation, with tool="sygus". The program is the `sygus` on the
path, or that of --tool-directory, as tools/install copies it; it keeps no time limit, BenchExec does.

The result is `true` where each check-synth has definitions, `false(infeasible)` where one is `infeasible`, `unknown`
where one is `fail`, and else an error. Columns: `cause` is the cause of the first `fail` or of a refusal.
"""
import re

import benchexec.result as result
import benchexec.tools.template

FAIL = re.compile(r"^fail: check-synth \d+ (\w+)$")
REFUSED = re.compile(r"^refused: .* cause \d+ (\w+(?: \w+)?)$")
REASONS = {2: "file refused", 3: "command line refused", 4: "read failed", 5: "write failed", 6: "out of memory"}


class Tool(benchexec.tools.template.BaseTool2):
    """sygus, a solver of SyGuS problems over bit vectors and integers."""

    def executable(self, tool_locator):
        return tool_locator.find_executable("sygus", subdir="bin")

    def name(self):
        return "sygus"

    def cmdline(self, executable, options, task, rlimits):
        return [executable, *options, "--", task.single_input_file]

    def determine_result(self, run):
        status = run.exit_code.value
        if status == 0:
            is_infeasible = any(line.strip() == "infeasible" for line in run.output)
            return f"{result.RESULT_FALSE_PROP}(infeasible)" if is_infeasible else result.RESULT_TRUE_PROP
        if status == 1:
            return result.RESULT_UNKNOWN
        reason = REASONS.get(status)
        return f"{result.RESULT_ERROR} ({reason})" if reason else result.RESULT_ERROR

    def get_value_from_output(self, output, identifier):
        if identifier != "cause":
            return None
        found = (FAIL.match(line.strip()) or REFUSED.match(line.strip()) for line in output)
        return next((match[1] for match in found if match), None)
