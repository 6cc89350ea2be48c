"""How long programs take, on one processor."""

import os
import subprocess

from lib.tools import built_program, give_up, output

RUNS = 5

# Runs a program, and says its status, the microseconds of the processor and the most resident KiB. A program that Python starts counts
# what was resident of Python too.
MEASURE = """
#include <stdio.h>
#include <sys/resource.h>
#include <sys/wait.h>
#include <unistd.h>
int main(int argc, char **argv) {
    int status;
    struct rusage used;
    pid_t child = fork();
    if (child == 0) {
        freopen("/dev/null", "r", stdin);
        freopen(argv[1], "w", stdout);
        freopen("/dev/null", "w", stderr);
        execvp(argv[2], argv + 2);
        _exit(127);
    }
    if (wait4(child, &status, 0, &used) < 0) return 1;
    long micros = (used.ru_utime.tv_sec + used.ru_stime.tv_sec) * 1000000 + used.ru_utime.tv_usec + used.ru_stime.tv_usec;
    printf("%d %ld %ld\\n", WIFEXITED(status) ? WEXITSTATUS(status) : -1, micros, used.ru_maxrss);
}
"""


def use_one_processor():
    """Runs this process and all that it starts on the first processor that it may use."""
    os.sched_setaffinity(0, {min(os.sched_getaffinity(0))})


def bench_part(name):
    """The built program of cases_unwinding with the name of a part, as a command."""
    return [built_program("cases_unwinding"), "part", name]


def words_of(program):
    """The words of a command: a program, perhaps with its first arguments."""
    return [str(word) for word in (program if isinstance(program, list) else [program])]


def printed(program, *words, given=b""):
    """What a program prints on some input."""
    run = subprocess.run([*words_of(program), *words], input=given, stdout=subprocess.PIPE)
    if run.returncode != 0:
        give_up(f"{program} ended with status {run.returncode}")
    return run.stdout.decode()


def processor_time(program, path):
    """The least seconds of the processor of five runs with a file as input, and what the program wrote. Other load of the machine adds
    less to them than to the time by the clock."""
    least = None
    for _ in range(RUNS):
        with open(path, "rb") as source:
            child = subprocess.Popen(words_of(program), stdin=source, stdout=subprocess.PIPE)
            written = child.stdout.read()
            _, status, used = os.wait4(child.pid, 0)
            child.returncode = os.waitstatus_to_exitcode(status)
            child.stdout.close()
        if child.returncode != 0:
            give_up(f"{program} ended with status {child.returncode}")
        taken = used.ru_utime + used.ru_stime
        least = taken if least is None else min(least, taken)
    return least, written


def measuring(folder):
    """A program that measures what another takes."""
    (folder / "measure.c").write_text(MEASURE)
    output("gcc", "-O1", "-w", "-o", folder / "measure", folder / "measure.c")
    return folder / "measure"


def resources(measure, words, written, statuses=(0,)):
    """The seconds of the processor and the MiB of a run, which writes into a file."""
    status, micros, size = map(int, output(measure, written, *map(str, words)).split())
    if status not in statuses:
        give_up(f"{words[0]} ended with status {status}")
    return micros / 1e6, size / 1024
