"""Programs that are stopped, and cores that are made of them, by gdb, by Linux or on aarch64 by qemu.

A core of qemu has neither an NT_FILE nor an NT_ARM_PAC_MASK, which Linux writes: they are added, with the mappings that the program copied
from its /proc/self/maps before its `main`, and the bits of a signature of addresses of 48 bits.
"""

import collections
import lzma
import pathlib
import re
import resource
import struct
import subprocess
import time

from lib import cores
from lib.tools import give_up, output, run

DOWN = """
#include <stdlib.h>
#include <string.h>
struct sized { long a[9]; };
__attribute__((noinline)) long down(long n, struct sized s) {
    volatile char room[48];
    memset((void *)room, (int)n, sizeof room);
    if (n == 0) abort();
    s.a[n % 9] += n;
    return down(n - 1, s) + room[n % 48];
}
int main(int argc, char **argv) {
    struct sized s = {{1, 2, 3}};
    return (int)down(argc > 1 ? atol(argv[1]) : 5, s);
}
"""

# A stack that is realigned at each call: the row's CFA is in r10 first, and then in memory.
ALIGNED = """
#include <stdlib.h>
#include <string.h>
__attribute__((noinline)) long down(long n) {
    _Alignas(64) volatile char room[128];
    volatile char *more = __builtin_alloca(n * 16 + 16);
    memset((void *)room, (int)n, sizeof room);
    memset((void *)more, (int)n, n * 16 + 16);
    if (n == 0) abort();
    return down(n - 1) + room[n] + more[n];
}
int main(int argc, char **argv) { return (int)down(argc > 1 ? atol(argv[1]) : 5); }
"""

THREADS = """
#include <pthread.h>
#include <stdlib.h>
#include <unistd.h>
static pthread_barrier_t all;
static void *work(void *argument) {
    long n = (long)argument;
    volatile long room[n % 7 + 1];
    room[0] = n;
    if (n % 3 == 0 && n > 9) return work((void *)(n - 10));
    pthread_barrier_wait(&all);
    pause();
    return (void *)room[0];
}
int main(void) {
    pthread_t thread;
    pthread_barrier_init(&all, 0, 41);
    for (long n = 0; n < 40; n++) pthread_create(&thread, 0, work, (void *)n);
    pthread_barrier_wait(&all);
    usleep(100000);
    abort();
}
"""

THROWS = """
#include <cstdlib>
#include <stdexcept>
#include <string>
struct Guard { std::string name; ~Guard() { if (name == "stop") abort(); } };
__attribute__((noinline)) int thrower(int n) {
    Guard guard{n == 0 ? "stop" : "go on"};
    if (n == 0) throw std::runtime_error("thrown");
    return thrower(n - 1) + 1;
}
int main() {
    try { return thrower(6); } catch (const std::exception &) { return 3; }
}
"""

SORTS = """
#include <stdlib.h>
static int compare(const void *a, const void *b) {
    int x = *(const int *)a, y = *(const int *)b;
    if (x == 77) abort();
    return x < y ? -1 : x > y;
}
int main(void) {
    int numbers[100];
    for (int i = 0; i < 100; i++) numbers[i] = (i * 37) % 101;
    qsort(numbers, 100, sizeof *numbers, compare);
    return numbers[0];
}
"""

SIGNALS = """
#include <pthread.h>
#include <signal.h>
#include <stdlib.h>
#include <string.h>
static volatile int depth;
static void inner(int number) { abort(); }
static void outer(int number, siginfo_t *info, void *context) { depth += number; if (raise(SIGUSR1)) depth = 0; }
__attribute__((noinline)) static long crash(volatile long *at, long n) { long room[4] = {n, n + 1}; return *at + room[n & 1]; }
__attribute__((noinline)) static long callee(long n) { return n > 3 ? crash(0, n) + 1 : callee(n + 1) + n; }
int main(int argc, char **argv) {
    static char room[1 << 16];
    stack_t stack = {.ss_sp = room, .ss_size = sizeof room};
    struct sigaction action;
    memset(&action, 0, sizeof action);
    if (argc > 1) sigaltstack(&stack, 0);
    action.sa_sigaction = outer;
    action.sa_flags = SA_SIGINFO | (argc > 1 ? SA_ONSTACK : 0);
    sigaction(SIGSEGV, &action, 0);
    signal(SIGUSR1, inner);
    return (int)callee(argc);
}
"""

RUST = r"""
use std::sync::{Arc, Barrier};
use std::time::Duration;
#[inline(never)]
fn apply<F: FnMut(u64) -> u64>(n: u64, mut f: F) -> u64 {
    std::hint::black_box(f(n)) + 1
}
fn work(n: u64, all: &Barrier) -> u64 {
    apply(n, |a| {
        apply(a + 1, |b| {
            apply(b + 1, |c| {
                all.wait();
                if n != 3 {
                    loop { std::thread::park(); }
                }
                std::thread::sleep(Duration::from_millis(200));
                let list: Vec<u64> = (0..c).collect();
                std::hint::black_box(&list)[c as usize + 9]
            })
        })
    })
}
fn main() {
    std::panic::set_hook(Box::new(|_| std::process::abort()));
    let all = Arc::new(Barrier::new(8));
    let threads: Vec<_> = (0..8).map(|n| { let all = all.clone(); std::thread::spawn(move || work(n, &all)) }).collect();
    for thread in threads { let _ = thread.join(); }
}
"""

# Writes over its stack from the fifth caller on: letters, zeros, an address of its code, one of its stack, or an address without memory.
DAMAGED = """
#include <stdlib.h>
static volatile long *from;
long down(long n, long kind);
__attribute__((noinline)) static void damage(long kind) {
    long words[] = {0x4141414141414141, 0, (long)down + 24, (long)(from + 5), 4096};
    for (long i = 0; i < 64; i++) from[i] = words[kind];
    abort();
}
__attribute__((noinline)) long down(long n, long kind) {
    volatile long room[6] = {n, 2, 3};
    if (n == 4) from = room;
    if (n == 0) damage(kind);
    return down(n - 1, kind) + room[n % 6];
}
int main(int argc, char **argv) { return (int)down(argc + 9, atol(argv[1])); }
"""

# Calls an address without code: 0, one without memory, or one of data; and handles the signal, if there is a second argument.
NOWHERE = """
#include <signal.h>
#include <stdlib.h>
#include <string.h>
typedef long (*step_type)(long);
static long data[4] = {1, 2, 3};
static volatile step_type step;
static void handler(int number) { abort(); }
__attribute__((noinline)) static long call(long n) { volatile long room[5] = {n, n + 1}; return step(n) + room[n % 5]; }
__attribute__((noinline)) static long down(long n) {
    volatile char room[40];
    memset((void *)room, (int)n, sizeof room);
    return n == 0 ? call(n) + room[0] : down(n - 1) + room[n % 40];
}
int main(int argc, char **argv) {
    step_type steps[] = {0, (step_type)0x4141414140, (step_type)data};
    step = steps[atol(argv[1])];
    if (argc > 2) signal(SIGSEGV, handler);
    return (int)down(9);
}
"""

# Copies the mappings of the process before `main`, for a program of aarch64.
MAPS = """
#include <fcntl.h>
#include <stdlib.h>
#include <unistd.h>
__attribute__((constructor)) static void copy_maps(void) {
    char bytes[4096];
    int from = open("/proc/self/maps", O_RDONLY), to = open("maps", O_WRONLY | O_CREAT | O_TRUNC, 0600);
    for (long n; (n = read(from, bytes, sizeof bytes)) > 0;) if (write(to, bytes, n) != n) abort();
    close(from);
    close(to);
}
"""

# Call frames in `.debug_frame` alone, beside those that start files have in `.eh_frame`.
DEBUG_FRAME = ["-g", "-O2", "-fomit-frame-pointer", "-fno-asynchronous-unwind-tables", "-fno-unwind-tables"]

# Each built program: its source, compiler, options and arguments.
BUILT = {
    "c": (DOWN, "gcc", ["-O1"], ["20"]),
    "c-plain": (DOWN, "gcc", ["-O0"], ["20"]),
    "c-clang": (DOWN, "clang", ["-O2", "-fomit-frame-pointer"], ["20"]),
    "aligned": (ALIGNED, "gcc", ["-O2"], ["20"]),
    "callback": (SORTS, "gcc", ["-O2"], []),
    "exception": (THROWS, "g++", ["-O1"], []),
    "exception-clang": (THROWS, "clang++", ["-O2"], []),
    "threads": (THREADS, "gcc", ["-O1", "-pthread"], []),
    "static": (THREADS, "gcc", ["-O1", "-pthread", "-static"], []),
    "static-pie": (DOWN, "gcc", ["-O1", "-static-pie"], ["9"]),
    "stripped": (DOWN, "gcc", ["-O2", "-s"], ["30"]),
    "frame-pointers": (DOWN, "gcc", ["-O1", "-fno-omit-frame-pointer", "-fno-asynchronous-unwind-tables", "-fno-unwind-tables"], ["9"]),
    "debug-frame": (DOWN, "gcc", DEBUG_FRAME, ["20"]),
    "debug-frame-callback": (SORTS, "gcc", DEBUG_FRAME, []),
    "debug-frame-clang": (DOWN, "clang", DEBUG_FRAME, ["20"]),
    "no-pie": (DOWN, "clang", ["-O1", "-no-pie"], ["9"]),
    "signals": (SIGNALS, "gcc", ["-O1"], []),
    "signals-clang": (SIGNALS, "clang", ["-O2"], []),
    "signal-stack": (SIGNALS, "gcc", ["-O2"], ["1"]),
    "signals-static": (SIGNALS, "gcc", ["-O1", "-static"], []),
    "deep": (DOWN, "gcc", ["-O1"], ["9990"]),
    "deeper": (DOWN, "gcc", ["-O1"], ["99995"]),
    "rust": (RUST, "rustc", ["-O"], []),
    "rust-plain": (RUST, "rustc", [], []),
    "damaged-letters": (DAMAGED, "gcc", ["-O1"], ["0"]),
    "damaged-zeros": (DAMAGED, "gcc", ["-O1"], ["1"]),
    "damaged-code": (DAMAGED, "gcc", ["-O1"], ["2"]),
    "damaged-stack": (DAMAGED, "gcc", ["-O1"], ["3"]),
    "damaged-low": (DAMAGED, "gcc", ["-O1"], ["4"]),
}

# Each program whose file has no section headers, or isn't there when the core is read, which then has all pages of it; or both.
NO_HEADERS, NO_FILE = "no headers", "no file"
BARE = {
    "no-headers": (DOWN, "gcc", ["-O2", "-fomit-frame-pointer"], ["20"], [NO_HEADERS]),
    "no-headers-clang": (DOWN, "clang", ["-O2", "-fomit-frame-pointer"], ["20"], [NO_HEADERS]),
    "no-file": (DOWN, "gcc", ["-O2", "-fomit-frame-pointer"], ["20"], [NO_FILE]),
    "no-file-clang": (SIGNALS, "clang", ["-O2"], [], [NO_FILE]),
    "no-file-threads": (THREADS, "gcc", ["-O2", "-fomit-frame-pointer", "-pthread"], [], [NO_FILE]),
    "no-file-no-headers": (DOWN, "gcc", ["-O2", "-fomit-frame-pointer", "-no-pie"], ["20"], [NO_HEADERS, NO_FILE]),
    "exported": (DOWN, "gcc", ["-O2", "-fomit-frame-pointer", "-fno-reorder-blocks-and-partition", "-rdynamic"], ["20"], [NO_HEADERS]),
    "exported-sysv": (SIGNALS, "clang", ["-O2", "-rdynamic", "-Wl,--hash-style=sysv"], [], [NO_HEADERS]),
    "exported-no-file": (DOWN, "clang", ["-O2", "-fomit-frame-pointer", "-rdynamic"], ["20"], [NO_FILE]),
    "exported-no-pie": (DOWN, "gcc", ["-O1", "-no-pie", "-rdynamic"], ["20"], [NO_HEADERS, NO_FILE]),
}
# Those whose functions are symbols for dynamic linking, by which they are named then.
EXPORTED = {name for name in BARE if name.startswith("exported")}

# Each program that a signal ends, whose core Linux makes. eu-stack isn't asked: it leaves out the caller of an address without code.
ENDED = {
    "null-call": (NOWHERE, "gcc", ["-O2"], ["0"]),
    "null-call-plain": (NOWHERE, "gcc", ["-O0"], ["0"]),
    "null-call-clang": (NOWHERE, "clang", ["-O2", "-fomit-frame-pointer"], ["0"]),
    "null-call-static": (NOWHERE, "gcc", ["-O1", "-static"], ["0"]),
    "null-call-handled": (NOWHERE, "gcc", ["-O2"], ["0", "handled"]),
    "wild-call": (NOWHERE, "gcc", ["-O2"], ["1"]),
    "call-of-data": (NOWHERE, "gcc", ["-O2"], ["2"]),
    "call-of-data-handled": (NOWHERE, "clang", ["-O1"], ["2", "handled"]),
    "debug-frame-null-call": (NOWHERE, "gcc", DEBUG_FRAME, ["0"]),
}

# Each program whose symbols are in a file that is named by its build id.
STRIPPED = {
    "debug-file": (DOWN, "gcc", ["-O1", "-g", "-Wl,--build-id"], ["20"]),
    "debug-file-clang": (DOWN, "clang", ["-O2", "-fomit-frame-pointer", "-Wl,--build-id"], ["20"]),
}

# Each program whose symbols are in a file to which it has a link, with the folder of that: the program's, `.debug` there, or one below the
# folder of debug files. Some files are those of another build.
DEBUG_ROOT = "debug"
LINKED = {
    "debug-link": (DOWN, "gcc", ["-O1", "-g", "-Wl,--build-id=none"], ["20"], "."),
    "debug-link-folder": (DOWN, "clang", ["-O2", "-fomit-frame-pointer", "-Wl,--build-id"], ["20"], ".debug"),
    "debug-link-root": (DOWN, "gcc", ["-O2", "-Wl,--build-id=none"], ["20"], DEBUG_ROOT),
    "debug-link-of-another": (DOWN, "gcc", ["-O1", "-Wl,--build-id=none"], ["20"], "."),
}
OTHER_BUILDS = {"debug-link-of-another"}

# Each program with a section that isn't read, since it is compressed: what compresses it, and its name. The stacks go by frame pointers, or
# without the names of functions.
FRAME_POINTERS = ["-g", "-O1", "-fno-omit-frame-pointer", "-fno-asynchronous-unwind-tables", "-fno-unwind-tables"]
UNREAD = {
    "compressed-frames": (DOWN, "gcc", FRAME_POINTERS, ["20"], "--compress-debug-sections=zlib", ".debug_frame"),
    "compressed-frames-old": (DOWN, "gcc", FRAME_POINTERS, ["20"], "--compress-debug-sections=zlib-gnu", ".zdebug_frame"),
    "mini-debug-info": (DOWN, "gcc", ["-O1"], ["20"], None, ".gnu_debugdata"),
}

# Each program of the system that is stopped at work: its path and arguments.
STOPPED = {
    "python3": ("/usr/bin/python3", "-c", "import time\ndef f(n):\n    return f(n - 1) + 1 if n else time.sleep(600)\nf(40)"),
    "python3-sorts": ("/usr/bin/python3", "-c", "import re\nclass A:\n    def __init__(s, n): s.n = n\n    def __lt__(s, o):\n"
                      "        [None for _ in range(10**9)]\nsorted([A(n) for n in range(9)])"),
    "perl": ("/usr/bin/perl", "-e", "sub f { my $n = shift; return $n ? f($n - 1) : sleep 600 } f(30)"),
    "bash": ("/usr/bin/bash", "-c", "f() { if [ $1 = 0 ]; then while :; do :; done; else f $(($1 - 1)); fi; }; f 20"),
}

# Each program of aarch64: its source, compiler, options and arguments. Return addresses are signed in those with SIGNED.
ARM_GCC, ARM_GXX, SIGNED = "aarch64-linux-gnu-gcc", "aarch64-linux-gnu-g++", "-mbranch-protection=standard"
ARM_BUILT = {
    "aarch64-c": (DOWN, ARM_GCC, ["-O1"], ["20"]),
    "aarch64-c-plain": (DOWN, ARM_GCC, ["-O0", SIGNED], ["20"]),
    "aarch64-signed": (DOWN, ARM_GCC, ["-O2", SIGNED], ["20"]),
    "aarch64-no-frame-pointers": (DOWN, ARM_GCC, ["-O2", "-fomit-frame-pointer", SIGNED], ["20"]),
    "aarch64-callback": (SORTS, ARM_GCC, ["-O2", SIGNED], []),
    "aarch64-exception": (THROWS, ARM_GXX, ["-O1", SIGNED], []),
    "aarch64-threads": (THREADS, ARM_GCC, ["-O1", "-pthread", SIGNED], []),
    "aarch64-static": (THREADS, ARM_GCC, ["-O1", "-pthread", "-static"], []),
    "aarch64-stripped": (DOWN, ARM_GCC, ["-O2", "-s", SIGNED], ["30"]),
    "aarch64-frame-pointers": (DOWN, ARM_GCC, ["-O1", "-fno-asynchronous-unwind-tables", "-fno-unwind-tables", SIGNED], ["9"]),
    "aarch64-debug-frame": (DOWN, ARM_GCC, [*DEBUG_FRAME, SIGNED], ["20"]),
    "aarch64-signals": (SIGNALS, ARM_GCC, ["-O1", SIGNED], []),
    "aarch64-signal-stack": (SIGNALS, ARM_GCC, ["-O1"], ["1"]),
    "aarch64-signals-static": (SIGNALS, ARM_GCC, ["-O1", "-static"], []),
    "aarch64-deep": (DOWN, ARM_GCC, ["-O1", SIGNED], ["990"]),
    "aarch64-null-call": (NOWHERE, ARM_GCC, ["-O2", SIGNED], ["0"]),
    "aarch64-null-call-plain": (NOWHERE, ARM_GCC, ["-O0"], ["0"]),
    "aarch64-wild-call": (NOWHERE, ARM_GCC, ["-O1", "-fomit-frame-pointer"], ["1"]),
    "aarch64-null-call-handled": (NOWHERE, ARM_GCC, ["-O1", SIGNED], ["0", "handled"]),
}
ARM_ROOT = "/usr/aarch64-linux-gnu"
ARM_MASK = 0x7F << 48

NAMES = [*BUILT, *BARE, *ENDED, *STRIPPED, *LINKED, *UNREAD, *STOPPED, *ARM_BUILT]

# A program with its core; the debugger for it, with its first commands; and whether eu-stack can be asked.
Made = collections.namedtuple("Made", "program core debugger by_eu_stack")

MAKE = ["-ex", "set debuginfod enabled off", "-ex", "set confirm off", "-ex", "set height 0", "-ex", "handle SIGSEGV SIGUSR1 nostop noprint pass"]


def build(folder, source, compiler, options):
    """Builds a program, and returns its path."""
    suffix = ".rs" if compiler == "rustc" else ".cc" if "++" in compiler else ".c"
    path, program = (folder / "source").with_suffix(suffix), folder / "program"
    path.write_text(source)
    run(compiler, *options, *(["-A", "warnings"] if compiler == "rustc" else ["-w"]), "-o", program, path)
    return program


def make_by_gdb(folder, source, compiler, options, arguments):
    """Builds a program, runs it up to its signal, and makes its core."""
    return run_by_gdb(folder, build(folder, source, compiler, options), arguments)


def run_by_gdb(folder, program, arguments):
    """Runs a program up to its signal, and makes its core."""
    core = folder / "core"
    run("bash", "-c", 'ulimit -s unlimited; MALLOC_ARENA_MAX=1 exec "$@"', "bash", "gdb", "-nx", "-batch", *MAKE, "-ex", "run", "-ex",
        f"generate-core-file {core}", "--args", program, *arguments)
    return Made(program, core, ["gdb", "-nx", "-batch"], True)


# Which pages Linux writes to a core (`coredump_filter` of core(5)): those of no file and the first of ELF files, as it does itself, or all.
OWN_PAGES, ALL_PAGES = "0x33", "0x7f"


def dump_by_linux(folder, program, *arguments, limit=resource.RLIM_INFINITY, pages=OWN_PAGES):
    """The core that Linux makes of a program, with these pages, of which it writes at most so many bytes. Pages of zeros aren't written."""
    def prepare():
        resource.setrlimit(resource.RLIMIT_CORE, (limit, limit))
        pathlib.Path("/proc/self/coredump_filter").write_text(pages)

    subprocess.run([program, *arguments], cwd=folder, capture_output=True, preexec_fn=prepare)
    made = folder / "core"
    return made if made.is_file() else give_up("Linux made no file `core` (/proc/sys/kernel/core_pattern)")


def without_headers(data):
    """An ELF file without its section headers (e_shoff, e_shnum and e_shstrndx), and without what follows its segments."""
    table, count = struct.unpack_from("<Q", data, 32)[0], struct.unpack_from("<H", data, 56)[0]
    ends = [sum(struct.unpack_from("<Q", data, table + 56 * number + at)[0] for at in (8, 32)) for number in range(count)]
    return data[:40] + bytes(8) + data[48:60] + bytes(4) + data[64:max(ends)]


def make_bare(folder, name):
    """Builds a program, has Linux make its core, and leaves its file as the case wants it. Other tools read its whole file under another name:
    gdb finds no call frames without section headers, and eu-stack loses its way without the file."""
    source, compiler, options, arguments, lacks = BARE[name]
    program = build(folder, source, compiler, options)
    whole = program.with_name("whole")
    whole.write_bytes(program.read_bytes())
    if NO_HEADERS in lacks:
        program.write_bytes(without_headers(program.read_bytes()))
    core = dump_by_linux(folder, program, *arguments, pages=ALL_PAGES if NO_FILE in lacks else OWN_PAGES)
    if NO_FILE in lacks:
        program.unlink()
    return Made(whole, core, ["gdb", "-nx", "-batch"], True)


def make_ended(folder, name):
    """Builds a program and runs it up to its signal, by which Linux makes its core."""
    source, compiler, options, arguments = ENDED[name]
    program = build(folder, source, compiler, options)
    return Made(program, dump_by_linux(folder, program, *arguments), ["gdb", "-nx", "-batch"], False)


def make_stripped(folder, name):
    """Builds a program, moves its symbols to a file that is named by its build id, runs it up to its signal, and makes its core."""
    source, compiler, options, arguments = STRIPPED[name]
    program = build(folder, source, compiler, options)
    identity = re.search(r"Build ID: (\w+)", output("readelf", "-n", program))[1]
    debug = folder / ".build-id" / identity[:2] / f"{identity[2:]}.debug"
    debug.parent.mkdir(parents=True)
    run("objcopy", "--only-keep-debug", program, debug)
    run("strip", program)
    return run_by_gdb(folder, program, arguments)


def make_linked(folder, name):
    """Builds a program, moves its symbols to a file to which it gets a link, runs it up to its signal, and makes its core."""
    source, compiler, options, arguments, place = LINKED[name]
    program, debug_root = build(folder, source, compiler, options), folder / DEBUG_ROOT
    debug = debug_root / folder.relative_to("/") / "program.debug" if place == DEBUG_ROOT else folder / place / "program.debug"
    debug.parent.mkdir(parents=True, exist_ok=True)
    run("objcopy", "--only-keep-debug", program, debug)
    run("objcopy", "--strip-all", f"--add-gnu-debuglink={debug}", program)
    if name in OTHER_BUILDS:
        with debug.open("ab") as file:
            file.write(b"more")
    made = run_by_gdb(folder, program, arguments)
    return made._replace(debugger=[*made.debugger, "-iex", f"set debug-file-directory {debug_root}"])


def make_unread(folder, name):
    """Builds a program, compresses its debug sections, or its symbols as an ELF file in a section, runs it up to its signal, and makes its
    core."""
    source, compiler, options, arguments, compression, section = UNREAD[name]
    program = build(folder, source, compiler, options)
    if compression:
        run("objcopy", compression, program)
    else:
        symbols = folder / "symbols"
        run("objcopy", "--only-keep-debug", program, symbols)
        symbols.with_suffix(".xz").write_bytes(lzma.compress(symbols.read_bytes()))
        run("objcopy", "--strip-all", f"--add-section={section}={symbols.with_suffix('.xz')}", program)
    return run_by_gdb(folder, program, arguments)


def make_stopped(folder, name):
    """Runs a program for a moment, and makes its core."""
    core = folder / "core"
    process = subprocess.Popen(STOPPED[name], stdin=subprocess.DEVNULL)
    try:
        time.sleep(1)
        run("gdb", "-nx", "-batch", *MAKE, "-p", str(process.pid), "-ex", f"generate-core-file {core}")
    finally:
        process.kill()
        process.wait()
    return Made(pathlib.Path(STOPPED[name][0]), core, ["gdb", "-nx", "-batch"], True)


def mappings_in(path):
    """The mappings of files that a program copied."""
    for line in path.read_text().splitlines():
        span, _, offset, _, _, *name = line.split(maxsplit=5)
        if name and name[0].startswith("/"):
            start, end = (int(part, 16) for part in span.split("-"))
            yield cores.Mapping(start, end, int(offset, 16), name[0].encode())


def dump_by_qemu(folder, program, *arguments):
    """The core that qemu makes of a program of aarch64."""
    unlimited = (resource.RLIM_INFINITY, resource.RLIM_INFINITY)
    subprocess.run(["qemu-aarch64", "-L", ARM_ROOT, "-seed", "1", program, *arguments], cwd=folder, capture_output=True,
                   preexec_fn=lambda: resource.setrlimit(resource.RLIMIT_CORE, unlimited))
    # Linux makes one of qemu itself.
    (folder / "core").unlink(missing_ok=True)
    made = sorted(folder.glob("qemu_*.core"))
    return made[0] if made else give_up("qemu-aarch64 made no core")


def make_arm(folder, name):
    """Builds a program of aarch64, and runs it under qemu up to its signal."""
    source, compiler, options, arguments = ARM_BUILT[name]
    (folder / "maps.h").write_text(MAPS)
    program, core = build(folder, source, compiler, [*options, "-include", folder / "maps.h"]), folder / "core"
    dumped = dump_by_qemu(folder, program, *arguments).read_bytes()
    files = cores.file_note(list(mappings_in(folder / "maps")))
    masked = lambda notes: b"".join(each.whole + (cores.mask_note(ARM_MASK) if each.kind == cores.PRSTATUS else b"") for each in notes)
    core.write_bytes(cores.with_notes(dumped, lambda notes: masked(notes) + files))
    return Made(program, core, ["gdb-multiarch", "-nx", "-batch", "-ex", f"set sysroot {ARM_ROOT}"], False)


def make(folder, name):
    """A program with its core, in a folder."""
    if name in BUILT:
        # eu-stack takes more than three minutes of processor for 100,000 frames.
        return make_by_gdb(folder, *BUILT[name])._replace(by_eu_stack=name != "deeper")
    makers = {make_ended: ENDED, make_stripped: STRIPPED, make_linked: LINKED, make_bare: BARE, make_unread: UNREAD,
              make_stopped: STOPPED, make_arm: ARM_BUILT}
    return next(make_one for make_one, names in makers.items() if name in names)(folder, name)
