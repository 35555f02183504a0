"""The commands that a build runs: each in a session of its own, with its lines in a log."""

import math
import os
import queue
import signal
import subprocess
import threading

SECONDS_OF_SILENCE = 60.0


def processors():
    return len(os.sched_getaffinity(0))


def start(words, **how):
    """Starts a command in a session of its own, which gets as many shares of the processors as there are
    processors: where a system shares them by sessions, a build beside other work would get one."""
    nice = os.nice(0) - round(math.log(processors(), 1.25))

    def share():
        try:
            with open("/proc/self/autogroup", "w", encoding="ascii") as file:
                file.write(str(max(nice, -20)))
        except OSError:
            pass                        # it isn't allowed, or there are no such groups

    # pylint: disable-next=subprocess-popen-preexec-fn
    return subprocess.Popen(words, start_new_session=True, preexec_fn=share, stdout=subprocess.PIPE,
                            stderr=subprocess.STDOUT, text=True, errors="replace", **how)


def lines_of(process, log):
    """The lines that a process writes, which go to the log too; None after each minute without one."""
    lines = queue.Queue()

    def read():
        for line in process.stdout:
            lines.put(line)
        lines.put("")

    threading.Thread(target=read, daemon=True).start()
    with log.open("a", encoding="utf-8") as written:
        try:
            while True:
                try:
                    line = lines.get(timeout=SECONDS_OF_SILENCE)
                except queue.Empty:
                    yield None
                    continue
                if not line:
                    process.wait()
                    return
                written.write(line)
                yield line
        except BaseException:
            os.killpg(process.pid, signal.SIGTERM)
            process.wait()
            raise
