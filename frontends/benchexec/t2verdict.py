"""The tool-info module of t2verdict for BenchExec: files of C, of KoAT's form and of T2, by frontends/t2verdict-run."""
import re

import benchexec.result as result
import benchexec.tools.template

PROPERTIES = [(r"LTL\(\s*F\s+end\s*\)", "termination"), (r"LTL\(\s*G\s*!\s*call\(", "assert"), (r"LTL\(\s*G\s*!\s*overflow\s*\)", "overflow")]
FALSE = {"termination": "(termination)", "assert": "(unreach-call)", "overflow": "(no-overflow)"}
KILL = 9
ENDINGS = {3: "refused", 4: "input", 5: "output", 6: "out of memory", 9: "folder", 64: "words"}


class Tool(benchexec.tools.template.BaseTool2):
    """Starts t2verdict-run with a question for each task, and reads its first line."""

    REQUIRED_PATHS = ["t2verdict", "bin", "crates/t2verdict/out", "frontends", "examples"]

    def name(self):
        return "t2verdict"

    def executable(self, tool_locator):
        return tool_locator.find_executable("t2verdict-run", subdir="frontends")

    def program_files(self, executable):
        return self._program_files_from_executable(executable, self.REQUIRED_PATHS, parent_dir=True)

    def version(self, executable):
        return self._version_from_tool(executable, line_prefix="t2verdict")

    def cmdline(self, executable, options, task, rlimits):
        """The question is that of the options or of the task's property file, and the data model that of the task."""
        words = list(options)
        if not any(word.split("=")[0] == "--question" for word in words):
            words.append("--question=" + question_of(task.property_file))
        model = (task.options or {}).get("data_model") if isinstance(task.options, dict) else None
        if model and not any(word.split("=")[0] == "--model" for word in words):
            words.append("--model=" + model.lower())
        return [executable, *words, task.single_input_file]

    def determine_result(self, run):
        """MAYBE is unknown, also where it names the limit of --timeout. Limits of BenchExec end a run by KILL, and
        BenchExec itself says which one."""
        if run.exit_code.signal == KILL:
            return result.RESULT_ERROR
        if run.exit_code.signal is not None:
            return f"{result.RESULT_ERROR} (signal {run.exit_code.signal})"
        first = next((line.strip() for line in run.output if line.strip()), "")
        answers = {(0, "YES"): result.RESULT_TRUE_PROP, (1, "NO"): result.RESULT_FALSE_PROP + FALSE.get(asked(run.cmdline).split(":")[0], ""),
                   (2, "MAYBE"): result.RESULT_UNKNOWN}
        found = answers.get((run.exit_code.value, first))
        ending = ENDINGS.get(run.exit_code.value, f"status {run.exit_code.value}")
        return found or f"{result.RESULT_ERROR} ({ending})"


def asked(words):
    """The question of a command line."""
    words = list(words)
    for place, word in enumerate(words):
        if word.startswith("--question="):
            return word.split("=", 1)[1]
        if word == "--question" and place + 1 < len(words):
            return words[place + 1]
    return "termination"


def question_of(property_file):
    """The question of a property file as SV-COMP writes them, and termination without one."""
    if property_file is None:
        return "termination"
    with open(property_file, encoding="utf-8") as file:
        text = file.read()
    for pattern, question in PROPERTIES:
        if re.search(pattern, text):
            return question
    raise benchexec.tools.template.UnsupportedFeatureException(f"the property of {property_file}")
