"""Reading traces, and what the command line tools over traces share."""
import argparse
import re
import signal
import sys

NAME = r"[a-z][a-z0-9_]{0,31}"
PAIR = r"(-?[0-9]+),(-?[0-9]+)"
STEP = re.compile(rf"([0-9]+) ({NAME})((?: \S+)*)\Z")
HIT = re.compile(rf"({NAME})={PAIR}\Z")
WRITE = re.compile(rf"({NAME})(:=|\+=){PAIR}\Z")
END = re.compile(r"end ([0-9]+)\Z")


class Stop(Exception):
    """The tool ends with this word on standard error, and status 1."""


class Step:
    """A line of a trace: answers as lists of (variable, x, y), changes as (variable, "set" or "add", x, y)."""

    def __init__(self, time, agent):
        self.time, self.agent, self.answers, self.changes = int(time), agent, [], []


def step_of(line):
    """The step of a line, or None where it is no such line."""
    match = STEP.match(line)
    if not match:
        return None
    step = Step(*match.groups()[:2])
    for part in match.group(3).split():
        if part.startswith("[") and part.endswith("]") and not step.changes:
            hits = [HIT.match(it) for it in part[1:-1].split(";")] if part != "[]" else []
            if not all(hits):
                return None
            step.answers.append([(it.group(1), int(it.group(2)), int(it.group(3))) for it in hits])
        else:
            write = WRITE.match(part)
            if not write:
                return None
            variable, sign, x, y = write.groups()
            step.changes.append((variable, "set" if sign == ":=" else "add", int(x), int(y)))
    return step


def steps(file, name="the trace"):
    """The steps of a trace, one by one as its lines come; Stop at a line that no trace has."""
    count, ended = 0, False
    for number, line in enumerate(file, 1):
        line = line.removesuffix("\n")
        end = END.match(line)
        step = None if ended or end else step_of(line)
        if end and not ended and int(end.group(1)) == count:
            ended = True
        elif step is None:
            raise Stop(f"line {number} is not a line of a trace")
        else:
            count += 1
            yield step
    if not ended:
        print(f"{sys.argv[0].rsplit('/', 1)[-1]}: {name} has no end line: the run stopped early", file=sys.stderr)


def opened(path, tool):
    """The file of that name, or standard input where there is none."""
    if path in (None, "-"):
        if sys.stdin.isatty():
            print(f"{tool}: reading the trace from standard input (--help says more)", file=sys.stderr)
        sys.stdin.reconfigure(encoding="ascii", errors="replace", newline="\n")
        return sys.stdin
    try:
        return open(path, encoding="ascii", errors="replace", newline="\n")
    except OSError as error:
        raise Stop(f"{path}: {error.strerror}") from None


def scenario_of(path):
    """The scenario in the file of that name; Stop where it is refused."""
    import model

    try:
        with open(path, "rb") as it:
            return model.read(it.read())
    except OSError as error:
        raise Stop(f"{path}: {error.strerror}") from None
    except model.Refusal as refusal:
        raise Stop(f"{path}: {refusal.text} (tools/explain says more)") from None


def replay(scenario, trace):
    """Does the changes of a trace anew: gives (time, values), where values is a dict by name, first (-1, start values),
    then at the end of each time in which a step was done. It is one dict, that changes. Stop where a step saw something
    else than the scenario and the changes before it make: then they don't belong together."""
    from model import held

    values = {it["name"]: (it.get("x", 0), it.get("y", 0)) for it in scenario.parts["var"]}
    yield -1, values
    last = None
    for number, step in enumerate(steps(trace), 1):
        if last is not None and step.time != last:
            yield last, values
        last = step.time
        for variable, *seen in [hit for answer in step.answers for hit in answer]:
            if values.get(variable) != tuple(seen):
                raise Stop(f"line {number} of the trace isn't of this scenario: {variable} is {values.get(variable)}")
        for variable, word, x, y in step.changes:
            if variable not in values:
                raise Stop(f"line {number} of the trace isn't of this scenario: there is no {variable}")
            old = values[variable]
            values[variable] = (x, y) if word == "set" else (held(old[0] + x), held(old[1] + y))
    if last is not None:
        yield last, values


def members_of(scenario, names):
    """The variables of these classes, or those with these names, in the scenario's order; all where none is given."""
    every = [it["name"] for it in scenario.parts["var"]]
    if not names:
        return every
    wanted = set()
    for name in names:
        found = {every[it] for it in scenario.classes.get(name, [])} or {name} & set(every)
        if not found:
            raise Stop(f"the scenario has no class and no variable {name}")
        wanted |= found
    return [it for it in every if it in wanted]


def options(tool, text):
    """A reader of the command line, with the tool's own text as its help."""
    plain = argparse.RawDescriptionHelpFormatter
    return argparse.ArgumentParser(prog=tool, description=text, formatter_class=plain, allow_abbrev=False)


def guarded(main, tool):
    """Runs a tool: its status. A pipe that closes early ends it quietly, a Stop by one line on standard error."""
    signal.signal(signal.SIGPIPE, signal.SIG_DFL)
    try:
        return main() or 0
    except Stop as stop:
        print(f"{tool}: {stop}", file=sys.stderr)
        return 1
    except OSError as error:
        print(f"{tool}: {error.strerror}", file=sys.stderr)
        return 1
    except KeyboardInterrupt:
        return 130
