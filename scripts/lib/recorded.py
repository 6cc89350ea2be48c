"""Recordings that perf makes of programs at work: small ones that are built for it, and those of the system."""

import collections
import shlex
import shutil

from lib.tools import give_up, run

# Functions that call each other up to some depth and then work.
DOWN = """
static volatile unsigned long sum;
__attribute__((noinline)) void leaf(long n) { for (long i = 0; i < n; i++) sum += i * i; }
__attribute__((noinline)) long middle(long depth, long n) {
  volatile long room[8] = {n};
  if (depth) { long left = middle(depth - 1, n); leaf(9); return left + room[0]; }
  leaf(n);
  return room[0];
}
"""
CALLS = DOWN + "int main() { for (long i = 0; i < 600; i++) middle(i % 30, 300000); return 0; }"
DEEP = DOWN + "int main() { for (long i = 0; i < 60; i++) middle(2000, 3000000); return 0; }"
THREADS = DOWN + """
#include <pthread.h>
static void *work(void *depth) { for (long i = 0; i < 60; i++) middle((long)depth, 800000); return 0; }
int main() {
  pthread_t threads[4];
  for (long i = 0; i < 4; i++) pthread_create(&threads[i], 0, work, (void *)(i * 5));
  for (long i = 0; i < 4; i++) pthread_join(threads[i], 0);
  return 0;
}
"""
FORKS = DOWN + """
#include <sys/wait.h>
#include <unistd.h>
int main(int count, char **words) {
  if (count > 1) { for (long i = 0; i < 20; i++) middle(count * 3, 900000); return 0; }
  for (long i = 0; i < 6; i++) {
    if (fork() == 0) {
      for (long j = 0; j < 10; j++) middle(i, 900000);
      if (i % 2) execl("/proc/self/exe", words[0], "again", (char *)0);
      _exit(0);
    }
  }
  while (wait(0) > 0) ;
  return 0;
}
"""
SIGNALS = DOWN + """
#include <signal.h>
#include <sys/time.h>
static void handler(int number) { middle(3, 200000); }
int main() {
  struct itimerval every = {{0, 2000}, {0, 2000}};
  signal(SIGALRM, handler);
  setitimer(ITIMER_REAL, &every, 0);
  for (long i = 0; i < 300; i++) middle(7, 600000);
  return 0;
}
"""
SORTS = DOWN + """
#include <stdlib.h>
static int order(const void *one, const void *other) { leaf(40); return *(const int *)one - *(const int *)other; }
int main() {
  static int numbers[4096];
  for (long i = 0; i < 40; i++) {
    for (long j = 0; j < 4096; j++) numbers[j] = (int)(j * 7919 % 4099 * (i + 1));
    qsort(numbers, 4096, sizeof(int), order);
  }
  return 0;
}
"""
CLOCKS = """
#include <time.h>
#include <unistd.h>
static volatile long sum;
__attribute__((noinline)) void clocks(long n) { struct timespec at; while (n--) { clock_gettime(CLOCK_MONOTONIC, &at); sum += at.tv_nsec; } }
__attribute__((noinline)) void calls(long n) { char room[512]; int end = 0; while (n--) sum += getppid(); (void)room; (void)end; }
int main() { for (int i = 0; i < 30; i++) { clocks(500000); calls(50000); } return 0; }
"""
LIBRARY = DOWN + "long entry(long n) { long left = middle(n, 700000); leaf(9); return left; }"
LOADS = """
#include <dlfcn.h>
#include <stdio.h>
int main(int count, char **words) {
  for (int i = 0; i < 60; i++) {
    void *library = dlopen(words[1 + i % 2], RTLD_NOW);
    if (!library) { puts(dlerror()); return 1; }
    ((long (*)(long))dlsym(library, "entry"))(i % 9);
    dlclose(library);
  }
  return 0;
}
"""
THROWS = """
#include <map>
#include <stdexcept>
#include <string>
static volatile long sum;
__attribute__((noinline)) void leaf(long n) { for (long i = 0; i < n; i++) sum = sum + i * i; if (n % 3 == 0) throw std::runtime_error("third"); }
struct Room { std::string name = "a name that doesn't fit into the string itself"; ~Room() { sum = sum + name.size(); } };
__attribute__((noinline)) long middle(long depth, long n) { Room room; if (depth) return middle(depth - 1, n) + 1; leaf(n); return sum; }
int main() {
  std::map<std::string, long> found;
  for (long i = 0; i < 40000; i++) {
    try { found[std::to_string(i % 977)] += middle(i % 12, i % 5000); } catch (const std::exception &error) { sum = sum + error.what()[0]; }
  }
  return 0;
}
"""
COMPILED = """
#include <map>
#include <regex>
#include <string>
int main() { std::regex all("a+b"); std::map<std::string, int> found; return found.size(); }
"""
SCRIPT = """
import json, re
def words(depth):
    if depth: return words(depth - 1)
    found = {}
    for i in range(60000):
        found[str(i)] = [i, {"name": "n" * (i % 9)}]
    text = json.dumps(found, sort_keys=True)
    return len(json.loads(text)) + len(re.findall(r"n+", text)) + sum(sorted(len(it) for it in found))
for _ in range(4): words(12)
"""
PAGE = """
function words(depth) {
  if (depth) return words(depth - 1) + 1;
  const found = new Map();
  for (let i = 0; i < 200000; i++) found.set("n" + i, i % 7);
  return [...found.keys()].sort().filter((it) => /9+$/.test(it)).length;
}
let sum = 0;
for (let i = 0; i < 8; i++) sum += words(20) + JSON.stringify(new Array(99999).fill(i)).length;
"""

# What is run, and how much of the stack is copied with each sample, in bytes.
Case = collections.namedtuple("Case", "command stack")


def built(folder, source, *options, compiler="gcc", name="program"):
    """Builds a program, and returns its path."""
    path, program = folder / f"{name}{'.cc' if '++' in compiler else '.c'}", folder / name
    path.write_text(source)
    run(compiler, "-w", *options, "-o", program, path)
    return program


def at_work(folder, source, program, suffix):
    """A program of the system over a script, if it is there."""
    path = folder / f"script{suffix}"
    path.write_text(source)
    return [program, path] if shutil.which(program) else None


def loads(folder):
    libraries = [built(folder, LIBRARY, option, "-fPIC", "-shared", name=f"lib{option[1:]}.so") for option in ("-O1", "-O2")]
    return [built(folder, LOADS, "-O2"), *libraries]


def compiled(folder, options):
    source = folder / "compiled.cc"
    source.write_text(COMPILED)
    return ["g++", *options, "-c", "-o", folder / "compiled.o", source]


NO_TABLES = ("-fno-asynchronous-unwind-tables", "-fno-unwind-tables")
CASES = {
    "c": lambda it: Case([built(it, CALLS, "-O2")], 4096),
    "c-o0": lambda it: Case([built(it, CALLS, "-O0")], 8192),
    "clang": lambda it: Case([built(it, CALLS, "-O1", compiler="clang")], 4096),
    "frame-pointers": lambda it: Case([built(it, CALLS, "-O1", "-fno-omit-frame-pointer", *NO_TABLES)], 4096),
    "debug-frame": lambda it: Case([built(it, CALLS, "-O2", "-g", *NO_TABLES)], 4096),
    "static": lambda it: Case([built(it, CALLS, "-O2", "-static")], 4096),
    "stripped": lambda it: Case([built(it, CALLS, "-O2", "-s")], 4096),
    "deep": lambda it: Case([built(it, DEEP, "-O2")], 8192),
    "large": lambda it: Case([built(it, DEEP, "-O2")], 65528),
    "threads": lambda it: Case([built(it, THREADS, "-O2", "-pthread")], 4096),
    "forks": lambda it: Case([built(it, FORKS, "-O2")], 4096),
    "signals": lambda it: Case([built(it, SIGNALS, "-O2")], 8192),
    "sorts": lambda it: Case([built(it, SORTS, "-O2")], 4096),
    "clocks": lambda it: Case([built(it, CLOCKS, "-O2")], 4096),
    "loads": lambda it: Case(loads(it), 4096),
    "exceptions": lambda it: Case([built(it, THROWS, "-O2", compiler="g++")], 8192),
    "python": lambda it: Case(at_work(it, SCRIPT, "/usr/bin/python3", ".py"), 16384),
    "node": lambda it: Case(at_work(it, PAGE, "node", ".js"), 8192),
    "gcc": lambda it: Case(compiled(it, ["-O2"]), 8192),
}


def again(command, times):
    """A command that runs another so many times, one after the other."""
    return ["sh", "-c", "; ".join([shlex.join(map(str, command))] * times)] if times > 1 else command


def record(folder, name, frequency=997, times=1):
    """Makes the recording of a case in a folder, whose program is run so many times, and returns its path; None if its program isn't
    there."""
    if not shutil.which("perf"):
        give_up("perf is needed, and is not installed")
    case, file = CASES[name](folder), folder / "perf.data"
    if not case.command:
        return None
    options = ["-q", "-e", "cpu-clock", "-F", frequency, "--call-graph", f"dwarf,{case.stack}", "-o", file]
    run("perf", "record", *map(str, options), *map(str, again(case.command, times)), folder=folder)
    return file
