"""Runs a program over files in memory, which takes less time than pipes do."""

import os
import pathlib
import resource
import struct

from lib import tools

# Takes the place of a program's `main`: for each number of texts that it reads it forks a process for each of them, which is the program
# from there on. Some run at a time, each with files of its own. A library that refuses requests for memory is told which, and counts them.
SERVER = """
#define _GNU_SOURCE
#include <dlfcn.h>
#include <stdlib.h>
#include <sys/mman.h>
#include <sys/resource.h>
#include <sys/sendfile.h>
#include <sys/stat.h>
#include <sys/wait.h>
#include <unistd.h>
enum { GO = 100, ENDED, TEXTS, ANSWERS, AT_ONCE = 8 };
typedef int (*Main)(int, char **, char **);
__attribute__((weak)) void refuse(long first, long last, long *count);
struct text { long size, first, last; };
static Main program;
static struct { int files[3]; pid_t child; long number; } slots[AT_ONCE];
static long *counts;
static int begin(int at, long number, const struct text *given, const char *text, rlim_t seconds) {
    for (int i = 0; i < 3; i++)
        if (ftruncate(slots[at].files[i], 0) < 0 || lseek(slots[at].files[i], 0, SEEK_SET) < 0) return -1;
    if (pwrite(slots[at].files[0], text, given->size, 0) != given->size) return -1;
    counts[at] = 0;
    slots[at].number = number;
    slots[at].child = fork();
    if (slots[at].child == 0) {
        struct rlimit limit = {seconds, seconds + 1};
        for (int i = 0; i < 3; i++)
            if (dup2(slots[at].files[i], i) < 0) _exit(3);
        setrlimit(RLIMIT_CPU, &limit);
        if (refuse) refuse(given->first, given->last, &counts[at]);
    }
    return slots[at].child;
}
static int end(void) {
    int status, at = 0;
    struct rusage used;
    struct stat written[2];
    pid_t child = wait4(-1, &status, 0, &used);
    if (child < 0) return -1;
    while (slots[at].child != child) at++;
    slots[at].child = 0;
    long micros = (used.ru_utime.tv_sec + used.ru_stime.tv_sec) * 1000000 + used.ru_utime.tv_usec + used.ru_stime.tv_usec;
    for (int i = 0; i < 2; i++)
        if (fstat(slots[at].files[1 + i], &written[i]) < 0) return -1;
    long head[7] = {slots[at].number, status, micros, used.ru_maxrss, counts[at], written[0].st_size, written[1].st_size};
    if (write(ANSWERS, head, sizeof head) != sizeof head) return -1;
    for (int i = 0; i < 2; i++)
        for (off_t from = 0; from < written[i].st_size;)
            if (sendfile(ANSWERS, slots[at].files[1 + i], &from, written[i].st_size - from) <= 0) return -1;
    return at;
}
static int serve(int argc, char **argv, char **envp) {
    const char *given = getenv("SECONDS");
    rlim_t seconds = given ? atol(given) : 5;
    long count;
    counts = mmap(NULL, AT_ONCE * sizeof(long), PROT_READ | PROT_WRITE, MAP_SHARED | MAP_ANONYMOUS, -1, 0);
    if (counts == MAP_FAILED) return 3;
    for (int at = 0; at < AT_ONCE; at++)
        for (int i = 0; i < 3; i++) slots[at].files[i] = memfd_create("file", MFD_CLOEXEC);
    while (read(GO, &count, sizeof count) == sizeof count) {
        struct stat texts;
        if (fstat(TEXTS, &texts) < 0) return 3;
        char *all = mmap(NULL, texts.st_size, PROT_READ, MAP_SHARED, TEXTS, 0), *text = all + count * sizeof(struct text);
        if (all == MAP_FAILED || ftruncate(ANSWERS, 0) < 0 || lseek(ANSWERS, 0, SEEK_SET) < 0) return 3;
        long begun = 0;
        for (long ended = 0; ended < count; ended++) {
            for (int at = 0; at < AT_ONCE && begun < count; at++)
                if (slots[at].child == 0) {
                    const struct text *given = (const struct text *)all + begun;
                    int child = begin(at, begun++, given, text, seconds);
                    if (child < 0) return 3;
                    if (child == 0) return program(argc, argv, envp);
                    text += given->size;
                }
            if (end() < 0) return 3;
        }
        munmap(all, texts.st_size);
        if (write(ENDED, &count, sizeof count) != sizeof count) return 3;
    }
    return 0;
}
int __libc_start_main(Main main, int argc, char **argv, void *begin, void *end, void *end_loader, void *stack) {
    int (*start)(Main, int, char **, void *, void *, void *, void *) = dlsym(RTLD_NEXT, "__libc_start_main");
    program = main;
    return start(serve, argc, argv, begin, end, end_loader, stack);
}
"""


class Files:
    """Files in memory that are a program's standard input, output and error."""

    def __init__(self):
        self.files = [os.memfd_create(name) for name in ("stdin", "stdout", "stderr")]

    def begin(self, text):
        for file, content in zip(self.files, (text, b"", b"")):
            os.ftruncate(file, 0)
            os.pwrite(file, content, 0)
            os.lseek(file, 0, os.SEEK_SET)

    def written(self):
        return tuple(os.pread(file, os.fstat(file).st_size, 0) for file in self.files[1:])

    def end(self):
        for file in self.files:
            os.close(file)

    def actions(self, others):
        return [(os.POSIX_SPAWN_DUP2, file, number) for number, file in enumerate([*self.files, *others])]


class Runner:
    """Runs of a program. Each is ended by a signal after so many seconds of processor time."""

    def __init__(self, program, seconds=5, arguments=()):
        self.words, self.seconds = [os.fspath(program), *arguments], seconds
        self.files = Files()
        self.slowest = 0.0

    def run(self, text, environment={}, others=()):
        """The status, or minus the signal, and the bytes that were written to standard output and to standard error. The program has
        the other files too, from number 3 on."""
        self.files.begin(text)
        child = os.posix_spawn(self.words[0], self.words, environment, file_actions=self.files.actions(others))
        try:
            resource.prlimit(child, resource.RLIMIT_CPU, (self.seconds, self.seconds + 1))
        except ProcessLookupError:
            pass
        _, status, usage = os.wait4(child, 0)
        self.seconds_used = usage.ru_utime + usage.ru_stime
        self.slowest = max(self.slowest, self.seconds_used)
        return os.waitstatus_to_exitcode(status), *self.files.written()

    def takes_section(self, name):
        """Whether the program, which is ./unwind, loads a module with a section of this name."""
        place = '"start":"0x0","end":"0x1","base":"0x0","base_svma":"0x0"'
        load = f'{{"do":"load","unwinder":0,"name":"m",{place},"sections":[{{"name":"{name}"}}]}}'
        return self.run(f'{{"arch":"x86_64","policy":"may","commands":[{{"do":"unwinder"}},{load}]}}'.encode())[0] == 0


def build_library(folder, name, text):
    """A library of C, to be loaded before those of a program. gcc builds it."""
    source, library = pathlib.Path(folder) / f"{name}.c", pathlib.Path(folder) / f"{name}.so"
    source.write_text(text)
    tools.run("gcc", "-O2", "-fno-builtin", "-shared", "-fPIC", source, "-o", library)
    return os.fspath(library)


def build_server(folder):
    """The library that makes a program serve runs."""
    return build_library(folder, "server", SERVER)


class ForkingRunner:
    """Runs of a program that is started and linked once, up to its `main`: each run is a process that is forked from there, which takes a
    fraction of the time of a start. Each is ended by a signal after so many seconds of processor time."""

    def __init__(self, program, libraries, seconds=5, arguments=()):
        self.texts, self.answers = os.memfd_create("texts"), os.memfd_create("answers")
        self.slowest, self.largest, self.count, self.requests = 0.0, 0, 0, []
        go, self.go = os.pipe()
        self.ended, ended = os.pipe()
        environment = {"LD_PRELOAD": ":".join(libraries), "SECONDS": str(seconds)}
        actions = [(os.POSIX_SPAWN_DUP2, file, number) for number, file in enumerate([go, ended, self.texts, self.answers], 100)]
        self.child = os.posix_spawn(os.fspath(program), [os.fspath(program), *arguments], environment, file_actions=actions)
        for file in (go, ended):
            os.close(file)

    def begin(self, texts, refused=None):
        """Begins a run of each text, and refuses it requests for memory from the first to the last of a pair of numbers."""
        self.count = len(texts)
        head = [struct.pack("3l", len(text), *which) for text, which in zip(texts, refused or [(0, 0)] * self.count)]
        os.ftruncate(self.texts, 0)
        os.pwrite(self.texts, b"".join(head + texts), 0)
        os.write(self.go, struct.pack("l", self.count))

    def results(self):
        """For each text that was begun the status, or minus the signal, and the bytes that were written to standard output and to standard
        error."""
        if len(os.read(self.ended, 8)) != 8:
            tools.give_up("the program ended before its main, or was not linked with the C library")
        data, at, found = os.pread(self.answers, os.fstat(self.answers).st_size, 0), 0, [None] * self.count
        self.requests = [0] * self.count
        for _ in range(self.count):
            number, status, micros, kilobytes, requests, out, errors = struct.unpack_from("7l", data, at)
            self.slowest, self.largest, self.requests[number] = max(self.slowest, micros / 1e6), max(self.largest, kilobytes), requests
            middle = at + 56 + out
            found[number] = os.waitstatus_to_exitcode(status), data[at + 56 : middle], data[middle : middle + errors]
            at = middle + errors
        return found

    def end(self):
        for file in (self.go, self.ended, self.texts, self.answers):
            os.close(file)
        os.waitpid(self.child, 0)
