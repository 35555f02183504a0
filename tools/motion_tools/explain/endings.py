"""How a run ended: whether all tasks came to their ends, and else where each one stood."""

import re

from motion_tools.explain import hints
from motion_tools.explain.findings import Finding
from motion_tools.explain.run import Run
from motion_tools.explain.scans import Scans
from motion_tools.explain.walk import Standing


def endings(run: Run) -> list[Finding]:
    """Whether the tasks came to their ends, and else why, and where each one stood."""
    history = run.history
    living = [task for task in history.machine.tasks if task not in history.ended]
    if not living:
        return [Finding("note", "", "All tasks came to their ends.")]
    number, lacking = (8, f"all {history.machine.cycles} cycles were made") \
        if history.cycles >= history.machine.cycles else \
        (9, f"no room is left of the {history.machine.entries} entries")
    says = f"Without an end: {', '.join(living)}. The run ended since {lacking}."
    found = [Finding("error", f"status {number}", says, hints.status(number)[2],
                     when=run.when(history.cycles), cycle=history.cycles)]
    for task in living:
        found += standing(run, task)
    return found


def standing(run: Run, name: str) -> list[Finding]:
    """Where a task without an end stood."""
    task = run.walk.tasks.get(name) if run.walk else None
    if task:
        return [waits(run, task)]
    return [scanned(run, name, run.scans)] if run.scans else []


def waits(run: Run, task: Standing) -> Finding:
    """The line at which a task of a program stood, and why it may stand there for ever."""
    line = task.here()
    if line is None:
        return Finding("error", "stands", f"the task {task.name} had made all its lines, and not "
                       "its end")
    block = line.words[1]
    found = Finding("error", "stands", f"the task {task.name} stood at this line: "
                    f"{run.who(block)} last showed {shown(run, block)}")
    found.cure = wait_cure(run, block, line.words[2] if line.verb == "wait" else "")
    return run.at(found, line.line)


def wait_cure(run: Run, block: str, flag: str) -> str:
    """What may end a wait."""
    history = run.history.blocks[block]
    kind = history.block.kind
    never = hints.texts()["never"].get(kind)
    if never and flag == never[0]:
        return never[1]
    if flag == "reached" and kind not in hints.texts()["never"]:
        return f"{kind} shows no value that is reached: wait for done"
    if history.last and not history.last.execute:
        return "its last call was off, so nothing new will be shown: call it on before the wait"
    if kind == "Power":
        return "look at the drive: it didn't come to Operation enabled"
    axes = [f"{name} is in {axis.last.state} at {run.units.text(name, axis.last.setpoint)}"
            for name in run.history.axes_of(history.block.on)
            if (axis := run.history.axes[name]).last]
    return ("the command needs more time, or never ends, as one that waits after a GearIn whose "
            f"master rests: {'; '.join(axes)}. Raise cycles, or mend the program")


def scanned(run: Run, name: str, scans: Scans) -> Finding:
    """Where a task in Structured Text stood: its variables, and what it called in its last
    scans."""
    if name in scans.tasks and "finished" not in scans.tasks[name].task.variables:
        return Finding("error", "stands", f"the task {name} has no variable finished, so it is "
                       "scanned as long as there are cycles",
                       "declare finished : BOOL; and set it TRUE where the task is to end",
                       file=run.file)
    called = [run.who(block) + " showed " + shown(run, block)
              for block, told in run.history.blocks.items()
              if told.block.task == name and told.calls
              and told.last_cycle >= run.history.cycles - 1]
    values = scans.shown(name)
    says = f"finished of the task {name} didn't become TRUE" + (
        f": {values}" if values else "") + "; in its last scans " + (
        "; ".join(called) if called else "it called no block")
    found = Finding("error", "stands", says, stands_cure(run, name), file=run.file)
    return run.at(found, scans.state_line(name))


def stands_cure(run: Run, name: str) -> str:
    """What may lead on: of a block whose flag never comes, else in general."""
    for block, told in run.history.blocks.items():
        never = hints.texts()["never"].get(told.block.kind)
        flag = re.search(rf"\b{block}\.done\b", run.text)
        if told.block.task == name and never and flag:
            return never[1]
    powers = [block for block, told in run.history.blocks.items()
              if told.block.kind == "Power" and told.block.task == name and told.last
              and "R" not in told.last.outputs and told.last_cycle < run.history.cycles - 1]
    if powers:
        return (f"call the Power {' and '.join(powers)} in each scan: reached is what its last "
                "call showed, and it wasn't called again")
    return ("see which state the task stands in: one whose block isn't called, or whose condition "
            "never holds, stays")


def shown(run: Run, block: str) -> str:
    """What a block showed last, in words."""
    call = run.history.blocks[block].last
    if call is None:
        return "nothing, as it was never called"
    names = {"B": "Busy", "A": "Active", "D": "Done", "C": "CommandAborted", "E": "Error",
             "R": "reached"}
    found = [names[letter] for letter in call.outputs]
    return (" and ".join(found) or "no output") + (f" {call.error}" if call.error else "") + (
        "" if call.execute else ", called off")
