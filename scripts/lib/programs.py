"""Small programs whose call frames are read, and how they are linked."""

from lib.tools import output

# A function that calls a destructor as an exception passes.
CXX = """
struct Guard { ~Guard(); };
void may_throw(int);
int guarded(int n) { Guard g; try { may_throw(n); } catch (int e) { return e; } return n; }
int plain(int n) { return n + 1; }
"""
LOOPS = """
long calls(long (*f)(long), long n) { long s = 0; for (long i = 0; i < n; i++) { if (f(i)) return s; s += f(n) * f(s); } return s; }
long leaf(long n) { return n * 3; }
void never(void) { __builtin_trap(); }
"""
# Functions with stacks of several sizes, which save from none to six registers.
STACKS = """
extern long other(long, long *);
long leaf(long x) { return x * 3 + 1; }
long framed(long x) { long a[4] = {x, x + 1, x + 2, x + 3}; return other(x, a) + a[2]; }
long big(long x) { long a[4096]; other(x, a); return a[x & 4095]; }
long one(long x) { long a = x; return other(x, &a) + x; }
long two(long x, long y) { long a = x; return other(x, &a) + other(y, &a) * x; }
long three(long x, long y, long z) { long a = x; return other(x, &a) + other(y, &a) * x + z * y; }
long most(long a, long b, long c, long d, long e) {
    long r = 0;
    for (long i = 0; i < a; i++) { r += other(b + i, &r) * c + d; r ^= e; }
    return r;
}
long most_and_big(long a, long b, long c, long d, long e) {
    long r[4096];
    for (long i = 0; i < a; i++) { r[i] = other(b + i, r) * c + d; r[i + 1] ^= e; }
    return r[a];
}
"""
# The code that a signal handler returns to.
TRAMPOLINE = """
    .text
    .globl restore
    .cfi_startproc simple
    .cfi_signal_frame
    .cfi_def_cfa rsp, 8
    .cfi_offset rip, -8
restore:
    mov $15, %rax
    syscall
    .cfi_endproc
"""


def linked(folder, command, source, text, linker="ld", linking=("-Ttext=0x401000",)):
    """Compiles a source by a command, and links it alone, so that its addresses are final. Returns the program's path."""
    (folder / source).write_text(text)
    output(*command, "-c", source, "-o", "a.o", folder=folder)
    output(linker, "--no-eh-frame-hdr", "--unresolved-symbols=ignore-all", *linking, "-e", "0", "a.o", "-o", "program", folder=folder)
    return folder / "program"
