"""Instructions of x86_64, each as GNU's assembler writes it and as objdump 2.40 reads it, for the worked cases of `cases_files`."""

# The bytes, and the text that they were assembled from.
INSTRUCTIONS = """
55 push rbp
4157 push r15
6a12 push 0x12
6878563412 push 0x12345678
ff7510 push QWORD PTR [rbp+0x10]
415c pop r12
8f00 pop QWORD PTR [rax]
4889e5 mov rbp,rsp
4889ec mov rsp,rbp
488b5c2408 mov rbx,QWORD PTR [rsp+0x8]
4c89a42400010000 mov QWORD PTR [rsp+0x100],r12
4883ec18 sub rsp,0x18
4881ec00100000 sub rsp,0x1000
4883c418 add rsp,0x18
4883e4e0 and rsp,0xffffffffffffffe0
488d65d8 lea rsp,[rbp-0x28]
488d3d34120000 lea rdi,[rip+0x1234]
488d0480 lea rax,[rax+rax*4]
488d04ed10000000 lea rax,[rbp*8+0x10]
488d844478563412 lea rax,[rsp+rax*2+0x12345678]
498d0424 lea rax,[r12]
498d4500 lea rax,[r13+0x0]
8b042500100000 mov eax,DWORD PTR ds:0x1000
b878563412 mov eax,0x12345678
66b83412 mov ax,0x1234
b012 mov al,0x12
48b8f0debc9a78563412 movabs rax,0x123456789abcdef0
48c7c0ffffffff mov rax,0xffffffffffffffff
a0f0debc9a78563412 movabs al,ds:0x123456789abcdef0
a3f0debc9a78563412 movabs ds:0x123456789abcdef0,eax
66c7003412 mov WORD PTR [rax],0x1234
c70078563412 mov DWORD PTR [rax],0x12345678
c6401012 mov BYTE PTR [rax+0x10],0x12
a801 test al,0x1
a900100000 test eax,0x1000
f60701 test BYTE PTR [rdi],0x1
f70700100000 test DWORD PTR [rdi],0x1000
66f7070010 test WORD PTR [rdi],0x1000
40f6c701 test dil,0x1
f7d0 not eax
48f718 neg QWORD PTR [rax]
48f7e1 mul rcx
f73c24 idiv DWORD PTR [rsp]
66053412 add ax,0x1234
483dffffff7f cmp rax,0x7fffffff
6bc164 imul eax,ecx,0x64
4869c1e8030000 imul rax,rcx,0x3e8
480fafc1 imul rax,rcx
d1e0 shl eax,1
c1e004 shl eax,0x4
48d3fa sar rdx,cl
4893 xchg rbx,rax
6690 xchg ax,ax
90 nop
0f1f0400 nop DWORD PTR [rax+rax*1]
f30f1efa endbr64
c3 ret
c21000 ret 0x10
c9 leave
c8200001 enter 0x20,0x1
e8fb0f0000 call 0x10fc
ffd0 call rax
ff1500100000 call QWORD PTR [rip+0x1000]
e9fb0f0000 jmp 0x1109
eb0e jmp 0x11e
ffe0 jmp rax
ff24c500100000 jmp QWORD PTR [rax*8+0x1000]
740e je 0x129
0f85fa0f0000 jne 0x111b
e303 jrcxz 0x126
e2fb loop 0x120
cc int3
cd80 int 0x80
0f05 syscall
0fa2 cpuid
0f0b ud2
f4 hlt
4898 cdqe
4899 cqo
f348a5 rep movs QWORD PTR es:[rdi],QWORD PTR ds:[rsi]
f2ae repnz scas al,BYTE PTR es:[rdi]
f0480fb137 lock cmpxchg QWORD PTR [rdi],rsi
0fc1c8 xadd eax,ecx
0f95c0 setne al
400f94c6 sete sil
0f4ec2 cmovle eax,edx
0fbae005 bt eax,0x5
490fca bswap r10
0fb606 movzx eax,BYTE PTR [rsi]
480fbf06 movsx rax,WORD PTR [rsi]
4863c7 movsxd rax,edi
0fa4d003 shld eax,edx,0x3
0fadd0 shrd eax,edx,cl
f3480fb8c7 popcnt rax,rdi
64488b042528000000 mov rax,QWORD PTR fs:0x28
dd0424 fld QWORD PTR [rsp]
ddd9 fstp st(1)
0f280424 movaps xmm0,XMMWORD PTR [rsp]
f20f102500010000 movsd xmm4,QWORD PTR [rip+0x100]
660f70ca1b pshufd xmm1,xmm2,0x1b
660f73d808 psrldq xmm0,0x8
f20fc2c101 cmpltsd xmm0,xmm1
660fc4c003 pinsrw xmm0,eax,0x3
660fc5c003 pextrw eax,xmm0,0x3
0fc6c11b shufps xmm0,xmm1,0x1b
66480f7ec0 movq rax,xmm0
f20f2cc0 cvttsd2si eax,xmm0
660f380000 pshufb xmm0,XMMWORD PTR [rax]
f20f38f0c1 crc32 eax,cl
0f38f007 movbe eax,DWORD PTR [rdi]
660f3a0fc108 palignr xmm0,xmm1,0x8
660f3a0bc104 roundsd xmm0,xmm1,0x4
660f3a16c001 pextrd eax,xmm0,0x1
660f3a63c10c pcmpistri xmm0,xmm1,0xc
660f38dcc1 aesenc xmm0,xmm1
c5f877 vzeroupper
c5f458c2 vaddps ymm0,ymm1,ymm2
c4017e6f0c08 vmovdqu ymm9,YMMWORD PTR [r8+r9*1]
c5fd70c11b vpshufd ymm0,ymm1,0x1b
c4e3fd00c1d8 vpermq ymm0,ymm1,0xd8
c4e2f1a9c2 vfmadd213sd xmm0,xmm1,xmm2
c4e3714cc230 vpblendvb xmm0,xmm1,xmm2,xmm3
c4e270f2c2 andn eax,ecx,edx
c4e2f8f3c9 blsr rax,rcx
c4e2e3f6c1 mulx rax,rbx,rcx
c4e37bf0c107 rorx eax,ecx,0x7
c4e2e9f7c1 shlx rax,rcx,rdx
c5f893c1 kmovw eax,k1
c5f998c1 kortestb k0,k1
62f1f548584001 vaddpd zmm0,zmm1,ZMMWORD PTR [rax+0x40]
62e1f5d15800 vaddpd zmm16{k1}{z},zmm17,QWORD BCST [rax]
62f3754825c296 vpternlogd zmm0,zmm1,zmm2,0x96
62f17d4874c1 vpcmpeqb k0,zmm0,zmm1
62f17d4873d904 vpsrldq zmm0,zmm1,0x4
62f1fe486f0500100000 vmovdqu64 zmm0,ZMMWORD PTR [rip+0x1000]
62f5744858c2 vaddph zmm0,zmm1,zmm2
62f6754898c2 vfmadd132ph zmm0,zmm1,zmm2
"""

# Bytes that begin no instruction of 64-bit mode, or one that has more than 15 bytes or is AMD's alone, and what is said of each.
REFUSED = {
    "06": "Undefined",
    "9a": "Undefined",
    "d5": "Undefined",
    "0f04": "Undefined",
    "0f0f": "Undefined",
    "66e8": "Undefined",
    "660f84": "Undefined",
    "66c5f877": "Undefined",
    "48c4e27800": "Undefined",
    "c4e07800": "Undefined",
    "62f87c4810": "Undefined",
    "8fe8": "Xop",
    "66666666666666666666666666666690": "TooLong",
    "2e2e2e2e2e2e2e2e48b80000000000000000": "TooLong",
}


def codes():
    """The bytes of each."""
    return [line.split()[0] for line in INSTRUCTIONS.split("\n") if line] + list(REFUSED)


def shown(digits):
    """What is shown of the bytes: the length of the instruction that they are, and before it that each of their beginnings is cut off."""
    size = len(digits) // 2
    last = REFUSED.get(digits, size)
    return " ".join(["Truncated"] * (min(size, 15) - 1) + [str(last)] * (size - min(size, 15) + 1))
