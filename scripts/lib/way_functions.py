"""Functions in which ways out are followed, with their bytes, their texts and the rows of GNU's assembler."""

# Where the code of all functions begins.
BEGIN = 0x401000

# For each instruction its bytes, its text, the row's stack pointer of the caller, and where the row says that the frame pointer and, on
# aarch64, the link register are. In front of a function: whether a way leaves within its bounds, or leads out of them; there perhaps to a
# function that saves the link register, of which nothing is known once it was loaded.
FUNCTIONS = """
x86_64 leaves
55 | push %rbp | rsp+8 | u
4889e5 | mov %rsp,%rbp | rsp+16 | c-16
53 | push %rbx | rbp+16 | c-16
4883ec18 | sub $0x18,%rsp | rbp+16 | c-16
85ff | test %edi,%edi | rbp+16 | c-16
7407 | je 14 | rbp+16 | c-16
e800000000 | call 12 | rbp+16 | c-16
31c0 | xor %eax,%eax | rbp+16 | c-16
488b5df8 | mov -0x8(%rbp),%rbx | rbp+16 | c-16
c9 | leave | rbp+16 | c-16
c3 | ret | rsp+8 | u

x86_64 leaves
4885ff | test %rdi,%rdi | rsp+8 | u
741e | je 3d | rsp+8 | u
4154 | push %r12 | rsp+8 | u
55 | push %rbp | rsp+16 | u
53 | push %rbx | rsp+24 | c-24
4889fb | mov %rdi,%rbx | rsp+32 | c-24
488b2b | mov (%rbx),%rbp | rsp+32 | c-24
e8ecffffff | call 1a | rsp+32 | c-24
4883c308 | add $0x8,%rbx | rsp+32 | c-24
4883fd00 | cmp $0x0,%rbp | rsp+32 | c-24
75ee | jne 26 | rsp+32 | c-24
5b | pop %rbx | rsp+32 | c-24
5d | pop %rbp | rsp+24 | c-24
415c | pop %r12 | rsp+16 | u
c3 | ret | rsp+8 | u
31c0 | xor %eax,%eax | rsp+8 | u
c3 | ret | rsp+8 | u

x86_64 leads out
53 | push %rbx | rsp+8 | u
4883ec10 | sub $0x10,%rsp | rsp+16 | u
4889fb | mov %rdi,%rbx | rsp+32 | u
e8cdffffff | call 1a | rsp+32 | u
4889df | mov %rbx,%rdi | rsp+32 | u
4883c410 | add $0x10,%rsp | rsp+32 | u
5b | pop %rbx | rsp+16 | u
eba9 | jmp 0 | rsp+8 | u

x86_64 leads out
e8beffffff | call 1a | rsp+32 | c-24
eb08 | jmp 66 | rsp+32 | c-24

x86_64 leaves
4154 | push %r12 | rsp+8 | u
55 | push %rbp | rsp+16 | u
53 | push %rbx | rsp+24 | c-24
85ff | test %edi,%edi | rsp+32 | c-24
75f1 | jne 57 | rsp+32 | c-24
5b | pop %rbx | rsp+32 | c-24
5d | pop %rbp | rsp+24 | c-24
415c | pop %r12 | rsp+16 | u
c3 | ret | rsp+8 | u

aarch64 leaves
fd7bbda9 | stp x29, x30, [sp, #-48]! | sp+0 | u | u
fd030091 | mov x29, sp | sp+48 | c-48 | c-40
f35301a9 | stp x19, x20, [sp, #16] | sp+48 | c-48 | c-40
800000b4 | cbz x0, 1c | sp+48 | c-48 | c-40
f30300aa | mov x19, x0 | sp+48 | c-48 | c-40
fbffff97 | bl 0 | sp+48 | c-48 | c-40
e00313aa | mov x0, x19 | sp+48 | c-48 | c-40
f35341a9 | ldp x19, x20, [sp, #16] | sp+48 | c-48 | c-40
fd7bc3a8 | ldp x29, x30, [sp], #48 | sp+48 | c-48 | c-40
c0035fd6 | ret | sp+0 | u | u

aarch64 leaves
800100b4 | cbz x0, 58 | sp+0 | u | u
ff0301d1 | sub sp, sp, #0x40 | sp+0 | u | u
e827026d | stp d8, d9, [sp, #32] | sp+64 | u | u
fd7b03a9 | stp x29, x30, [sp, #48] | sp+64 | u | u
fdc30091 | add x29, sp, #0x30 | sp+64 | c-16 | c-8
010040f9 | ldr x1, [x0] | sp+64 | c-16 | c-8
f0ffff97 | bl 0 | sp+64 | c-16 | c-8
210400f1 | subs x1, x1, #0x1 | sp+64 | c-16 | c-8
c1ffff54 | b.ne 40 | sp+64 | c-16 | c-8
fd7b43a9 | ldp x29, x30, [sp, #48] | sp+64 | c-16 | c-8
e827426d | ldp d8, d9, [sp, #32] | sp+64 | u | u
ff030191 | add sp, sp, #0x40 | sp+64 | u | u
c0035fd6 | ret | sp+0 | u | u

aarch64 leaves
ff4300d1 | sub sp, sp, #0x10 | sp+0 | u | u
e00700f9 | str x0, [sp, #8] | sp+16 | u | u
e00f40b9 | ldr w0, [sp, #12] | sp+16 | u | u
ff430091 | add sp, sp, #0x10 | sp+16 | u | u
c0035fd6 | ret | sp+0 | u | u

aarch64 leads to a save
fe0f1ff8 | str x30, [sp, #-16]! | sp+0 | u | u
faffff97 | bl 5c | sp+16 | u | c-16
fe0741f8 | ldr x30, [sp], #16 | sp+16 | u | c-16
e1ffff17 | b 0 | sp+0 | u | u

aarch64 leads out
fe0f1ff8 | str x30, [sp, #-16]! | sp+0 | u | u
dfffff97 | bl 0 | sp+16 | u | c-16
fe0741f8 | ldr x30, [sp], #16 | sp+16 | u | c-16
f4ffff17 | b 5c | sp+0 | u | u

aarch64 leaves
fd7b41a9 | ldp x29, x30, [sp, #16] | sp+32 | c-16 | c-8
ff830091 | add sp, sp, #0x20 | sp+32 | u | u
c0035fd6 | ret | sp+0 | u | u

aarch64 leads out
ffc300d1 | sub sp, sp, #0x30 | sp+0 | u | u
fd7b02a9 | stp x29, x30, [sp, #32] | sp+48 | u | u
eeffff97 | bl 5c | sp+48 | c-16 | c-8
ff430091 | add sp, sp, #0x10 | sp+48 | c-16 | c-8
f9ffff17 | b 90 | sp+32 | c-16 | c-8
"""


def functions():
    """Each function: its architecture, what a way does, and its instructions."""
    for block in FUNCTIONS.strip().split("\n\n"):
        head, *lines = block.splitlines()
        machine, _, kind = head.partition(" ")
        yield machine, kind, [line.split(" | ") for line in lines]


def placed():
    """The same with the code of all functions of the architecture, and each one's addresses, the last being its end."""
    codes, found = {}, []
    for machine, kind, instructions in functions():
        addresses = [BEGIN + len(codes.get(machine, "")) // 2]
        for digits, *_ in instructions:
            codes[machine] = codes.get(machine, "") + digits
            addresses.append(BEGIN + len(codes[machine]) // 2)
        found.append((machine, kind, instructions, addresses))
    return [(machine, codes[machine], *rest) for machine, *rest in found]
