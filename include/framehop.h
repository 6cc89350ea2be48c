/* framehop.h: a proved stack unwinder, called from C and C++.
 *
 * A program makes a session, in it an unwinder for each profiled process and a cache, and loads the modules of each process in its
 * unwinder: the files that are mapped there, by their sections. A step then goes from a frame to its caller, and a walk writes the
 * addresses of a stack's frames.
 *
 *     framehop_session session = FRAMEHOP_NO_SESSION;
 *     framehop_session_new(&session, FRAMEHOP_X86_64);
 *     framehop_add_unwinder(&session, &unwinder);
 *     framehop_add_cache(&session, FRAMEHOP_SLOTS, &cache);
 *     framehop_load(&session, unwinder, &module);
 *     framehop_walk_x86_64 walk = framehop_walk_from_x86_64(unwinder, cache, registers);
 *     framehop_next_frames_x86_64(&session, &walk, &sample, frames, 256);
 *
 * The library reads no memory but what a call is given and what loads lent. It starts no thread, takes no lock and writes no file. It
 * takes its memory from three functions of the program, which heap.c has over malloc, realloc and free.
 *
 * STATUSES. Each call answers one. A call that answers an error (FRAMEHOP_IS_ERROR) leaves the session and all that it was to write as
 * they were, but for what its comment says. No call ends the process, for any bytes of sections and stacks, any registers and numbers.
 * A session without a value, an id that was let go or never made, and a number that a call doesn't know are errors too.
 *
 * NOTHING CHECKS what follows, and each caller owes it:
 * - Pointers are not NULL, also to no bytes, sections, words or frames: these are a pointer to anything, aligned, and the length 0.
 *   They point to what their types say, and what a call writes overlaps nothing else that it is given.
 * - A framehop_session is FRAMEHOP_NO_SESSION at first, and then written by these calls alone. It isn't copied.
 * - Bytes of a module (framehop_section.bytes, not names) are lent by a load: they stay readable and unchanged until the session is
 *   freed, or each unwinder that has the module, clones too, has unloaded it or was let go. They are read by loads, and by steps and
 *   walks of an unwinder that has the module.
 * - A session is in one call at a time. What a session counts it alone reaches, so that another thread may go on with it, after a lock,
 *   or a thread's start or join; two sessions share nothing, and work in two threads at once.
 * - No call is made from a signal handler, or in the child of a fork of a process with threads.
 */
#ifndef FRAMEHOP_H
#define FRAMEHOP_H

#include <stddef.h>
#include <stdint.h>
#include <string.h>

#ifdef __cplusplus
extern "C" {
#endif

/* ---- version */

/* Major, minor and patch, 8 bits each. The structs below are those of this version. */
#define FRAMEHOP_VERSION 0x000100u

/* The version of the library: to be compared with FRAMEHOP_VERSION. */
uint32_t framehop_version(void);

/* ---- statuses */

typedef uint32_t framehop_status;

enum {
    FRAMEHOP_OK = 0,           /* it is done; of a step: the frame has a caller */
    FRAMEHOP_END_OF_STACK = 1, /* the frame has no caller */
    FRAMEHOP_NEED_WORD = 2,    /* the step was not made: make the call again with one more word (framehop_word) */
    FRAMEHOP_FULL = 3,         /* a walk wrote as many frames as there was room for, and can go on */

    /* errors of a step */
    FRAMEHOP_COULD_NOT_READ_STACK = 16,
    FRAMEHOP_FRAMEPOINTER_UNWINDING_MOVED_BACKWARDS = 17,
    FRAMEHOP_DID_NOT_ADVANCE = 18,
    FRAMEHOP_INTEGER_OVERFLOW = 19,
    FRAMEHOP_RETURN_ADDRESS_IS_NULL = 20,

    /* errors of a step too, and of any call that takes memory or counts */
    FRAMEHOP_OUT_OF_MEMORY = 21,
    FRAMEHOP_GENERATIONS_EXHAUSTED = 22, /* a session changed its lists of modules 2^64 - 1 times */

    /* misuse */
    FRAMEHOP_NO_VALUE = 32,           /* the session has no value: it was freed, or never made */
    FRAMEHOP_NO_UNWINDER = 33,        /* the session has no unwinder of this id: it was let go, or never made */
    FRAMEHOP_NO_CACHE = 34,           /* the session has no cache of this id: it was let go, or never made */
    FRAMEHOP_OTHER_ARCHITECTURE = 35, /* the session is of the other architecture */
    FRAMEHOP_BAD_ARGUMENT = 36        /* a number is none of those that the call knows */
};

#define FRAMEHOP_IS_ERROR(status) ((status) >= FRAMEHOP_COULD_NOT_READ_STACK)

/* The name of a status, as "CouldNotReadStack". */
static inline const char *framehop_status_name(framehop_status status) {
    switch (status) {
    case FRAMEHOP_OK: return "Ok";
    case FRAMEHOP_END_OF_STACK: return "EndOfStack";
    case FRAMEHOP_NEED_WORD: return "NeedWord";
    case FRAMEHOP_FULL: return "Full";
    case FRAMEHOP_COULD_NOT_READ_STACK: return "CouldNotReadStack";
    case FRAMEHOP_FRAMEPOINTER_UNWINDING_MOVED_BACKWARDS: return "FramepointerUnwindingMovedBackwards";
    case FRAMEHOP_DID_NOT_ADVANCE: return "DidNotAdvance";
    case FRAMEHOP_INTEGER_OVERFLOW: return "IntegerOverflow";
    case FRAMEHOP_RETURN_ADDRESS_IS_NULL: return "ReturnAddressIsNull";
    case FRAMEHOP_OUT_OF_MEMORY: return "OutOfMemory";
    case FRAMEHOP_GENERATIONS_EXHAUSTED: return "GenerationsExhausted";
    case FRAMEHOP_NO_VALUE: return "NoValue";
    case FRAMEHOP_NO_UNWINDER: return "NoUnwinder";
    case FRAMEHOP_NO_CACHE: return "NoCache";
    case FRAMEHOP_OTHER_ARCHITECTURE: return "OtherArchitecture";
    case FRAMEHOP_BAD_ARGUMENT: return "BadArgument";
    default: return "unknown status";
    }
}

/* ---- sessions */

/* Unwinders and caches of one architecture. Its field is the library's own. */
typedef struct {
    void *at;
} framehop_session;

/* A session without a value. */
#define FRAMEHOP_NO_SESSION {0}

enum { FRAMEHOP_X86_64 = 0, FRAMEHOP_AARCH64 = 1 };

/* Puts a session of an architecture, without an unwinder and a cache, in place of what was there, which is freed. The caller frees it. */
framehop_status framehop_session_new(framehop_session *session, uint32_t architecture);

/* Frees a session, and leaves none. The caller uses none of its ids any more. */
framehop_status framehop_session_free(framehop_session *session);

/* ---- unwinders. An id is a number that a session gives once: one that was let go is told from all that live */

/* Makes an unwinder without a module, and writes its id. The caller keeps ids of different sessions apart. */
framehop_status framehop_add_unwinder(framehop_session *session, uint64_t *unwinder);

/* Makes an unwinder with the modules of another, and writes its id. The bytes of these are lent to both. */
framehop_status framehop_clone_unwinder(framehop_session *session, uint64_t unwinder, uint64_t *clone);

/* Lets an unwinder go, with its modules: the bytes that no clone of it has stay lent no longer. */
framehop_status framehop_remove_unwinder(framehop_session *session, uint64_t unwinder);

/* ---- caches. Any cache of a session serves any of its unwinders: each step is the one that the modules loaded then give without one */

/* As many slots as the original's caches have. */
#define FRAMEHOP_SLOTS 509

/* Makes a cache of 509 slots, or of a power of two from 2 to 2^20, and writes its id. The caller
 * chooses more slots for more code: two addresses that share a slot find their rules again each time. */
framehop_status framehop_add_cache(framehop_session *session, uint64_t slots, uint64_t *cache);

/* Lets a cache go, and frees it. The caller uses its id no more. */
framehop_status framehop_remove_cache(framehop_session *session, uint64_t cache);

/* How many look-ups in a cache found a rule, and why the others didn't. Each count stops at 2^64 - 1. */
typedef struct {
    uint64_t hit_count;
    uint64_t miss_empty_slot_count;
    uint64_t miss_wrong_modules_count;
    uint64_t miss_wrong_address_count;
} framehop_cache_stats;

/* Writes the counts of a cache. A step that answers FRAMEHOP_NEED_WORD is counted too, as each call that makes it again. */
framehop_status framehop_stats(framehop_session *session, uint64_t cache, framehop_cache_stats *stats);

/* ---- modules */

/* Bytes, or no bytes: FRAMEHOP_NO_BYTES. */
typedef struct {
    const uint8_t *bytes; /* never NULL */
    size_t length;
} framehop_bytes;

static const uint8_t framehop_nothing = 0;
#define FRAMEHOP_NO_BYTES {&framehop_nothing, 0}

/* The bytes at a pointer, which may be NULL if there are none. */
static inline framehop_bytes framehop_bytes_of(const void *at, size_t length) {
    framehop_bytes none = FRAMEHOP_NO_BYTES;
    if (at) {
        none.bytes = (const uint8_t *)at;
        none.length = length;
    }
    return none;
}

/* What is known of a section. */
enum {
    FRAMEHOP_HAS_BYTES = 1, /* its bytes */
    FRAMEHOP_HAS_RANGE = 2, /* its addresses */
    FRAMEHOP_IS_SEGMENT = 4 /* it is a segment: only __TEXT of Mach-O files is asked for */
};

/* A section of a file, or a segment. Of several of a name the first that has what is asked for counts. These are asked for:
 * - of ELF files: .eh_frame, .eh_frame_hdr, .debug_frame, .text, .got
 * - of Mach-O files: __unwind_info, __eh_frame, __text, __stubs, __stub_helper, __got, and the segment __TEXT
 * - of PE files: .pdata, .rdata, .xdata, .text, also .eh_frame, .debug_frame
 */
typedef struct {
    framehop_bytes name;  /* only read by the load */
    framehop_bytes bytes; /* lent */
    uint64_t start;       /* the address that the file states */
    uint64_t end;         /* the first address behind it */
    uint64_t given;       /* FRAMEHOP_HAS_BYTES | FRAMEHOP_HAS_RANGE | FRAMEHOP_IS_SEGMENT */
} framehop_section;

/* A section with its bytes and addresses. A section without bytes is made by NULL, one without addresses has start and end 0. */
static inline framehop_section framehop_section_of(const char *name, const void *bytes, size_t length, uint64_t start, uint64_t end) {
    framehop_section section;
    section.name = framehop_bytes_of(name, strlen(name));
    section.bytes = framehop_bytes_of(bytes, length);
    section.start = start;
    section.end = end;
    section.given = (bytes ? (uint64_t)FRAMEHOP_HAS_BYTES : 0u) | (end ? (uint64_t)FRAMEHOP_HAS_RANGE : 0u);
    return section;
}

/* How the FDEs of .eh_frame or .debug_frame are found. */
enum {
    FRAMEHOP_LOOKUP_AUTO = 0,  /* by .eh_frame_hdr if there is one and no table of rules is asked for, else by an index */
    FRAMEHOP_LOOKUP_INDEX = 1, /* by an index, which the load makes */
    FRAMEHOP_LOOKUP_SCAN = 2   /* by reading the section at each step */
};

/* By which rules the machine code of a module is read: in first frames, and by ways in later ones too. */
enum {
    FRAMEHOP_CODE_PUBLISHED = 0, /* by those of framehop */
    FRAMEHOP_CODE_KNOWN = 1,     /* by what is known of the code: ends of epilogs in PE files, and what __stub_helper has pushed */
    FRAMEHOP_CODE_WAYS = 2       /* so, and by ways out of functions: where no table has the address, and in functions of Mach-O files */
};

/* A file that is mapped in the profiled process. */
typedef struct {
    uint64_t start;     /* the addresses in the process that it covers */
    uint64_t end;       /* the first address behind them */
    uint64_t base;      /* the address in the process of what the file states to be at base_svma */
    uint64_t base_svma; /* of ELF files mostly 0, else the address of __TEXT or the image's base */
    const framehop_section *sections; /* never NULL */
    size_t section_count;
    uint32_t lookup;             /* FRAMEHOP_LOOKUP_.. */
    uint32_t tables;             /* unless 0, a table of rules is made, by which steps parse nothing where a rule says them */
    uint32_t debug_frame_beside; /* unless 0, .debug_frame is used where .eh_frame has no FDE */
    uint32_t code_rules;         /* FRAMEHOP_CODE_..; ways need the section of code with its bytes */
} framehop_module;

/* Loads a module in an unwinder. The caller lends the bytes of its sections, as the top of this file says; the rest it has back. */
framehop_status framehop_load(framehop_session *session, uint64_t unwinder, const framehop_module *module);

/* Unloads the last of an unwinder's modules that start at an address, if one does. The caller has its bytes back, but for clones. */
framehop_status framehop_unload(framehop_session *session, uint64_t unwinder, uint64_t start);

/* Writes the end of the unwinder's module with the greatest start, else 0. The caller makes of it a mask of code addresses. */
framehop_status framehop_max_known_code_address(framehop_session *session, uint64_t unwinder, uint64_t *address);

/* ---- stacks */

/* What is known of the word at an address: the word, or that it can't be read. */
typedef struct {
    uint64_t address;
    uint64_t word;
    uint64_t is_readable; /* 0 if it can't be read */
} framehop_word;

/* What is known of a stack: a copy of its bytes, and words beside it, of which the first for an address counts. If it asks, a word of
 * which nothing is known makes a call answer FRAMEHOP_NEED_WORD with its address; else it can't be read. So a stack that isn't copied
 * is walked as this, with room in `list` for as many words as the walk needs:
 *
 *     while ((status = framehop_next_frames_x86_64(&session, &walk, &sample, ..)) == FRAMEHOP_NEED_WORD)
 *         list[sample.known_count++] = word_at(walk.word_address);
 */
typedef struct {
    uint64_t start;       /* the address of the first byte of the copy */
    framehop_bytes bytes; /* the lowest byte of a word comes first */
    const framehop_word *known; /* never NULL */
    size_t known_count;
    uint64_t asks; /* 0 if no word is asked for */
} framehop_sample;

static const framehop_word framehop_no_word = {0, 0, 0};

/* A copy of a stack, and nothing beside it. */
static inline framehop_sample framehop_sample_of(uint64_t start, const void *bytes, size_t length) {
    framehop_sample sample;
    sample.start = start;
    sample.bytes = framehop_bytes_of(bytes, length);
    sample.known = &framehop_no_word;
    sample.known_count = 0;
    sample.asks = 0;
    return sample;
}

/* Where a step or a walk is. */
enum {
    FRAMEHOP_STARTS = 0,         /* before the first frame, whose instruction pointer is `address`: of a walk alone */
    FRAMEHOP_AT_INSTRUCTION = 1, /* at the frame whose instruction pointer is `address` */
    FRAMEHOP_AT_RETURN = 2,      /* at a frame whose return address is `address`, which isn't 0 */
    FRAMEHOP_OVER = 3            /* after the last frame: of a walk alone */
};

/* The address that a frame's function is looked up by. */
static inline uint64_t framehop_address_for_lookup(uint64_t place, uint64_t address) {
    return place == FRAMEHOP_AT_RETURN ? address - 1 : address;
}

/* ---- x86_64 */

/* The general registers by their DWARF numbers. */
enum {
    FRAMEHOP_RAX, FRAMEHOP_RDX, FRAMEHOP_RCX, FRAMEHOP_RBX, FRAMEHOP_RSI, FRAMEHOP_RDI, FRAMEHOP_RBP, FRAMEHOP_RSP,
    FRAMEHOP_R8, FRAMEHOP_R9, FRAMEHOP_R10, FRAMEHOP_R11, FRAMEHOP_R12, FRAMEHOP_R13, FRAMEHOP_R14, FRAMEHOP_R15
};

typedef struct {
    uint64_t ip;
    uint64_t general[16];
} framehop_registers_x86_64;

/* These three, and 0 in all others. */
static inline framehop_registers_x86_64 framehop_registers_of_x86_64(uint64_t ip, uint64_t sp, uint64_t bp) {
    framehop_registers_x86_64 registers;
    memset(&registers, 0, sizeof registers);
    registers.ip = ip;
    registers.general[FRAMEHOP_RSP] = sp;
    registers.general[FRAMEHOP_RBP] = bp;
    return registers;
}

/* A frame that a step is made from, and what the step gives. */
typedef struct {
    uint64_t unwinder;
    uint64_t cache;
    uint64_t place;                      /* FRAMEHOP_AT_INSTRUCTION or FRAMEHOP_AT_RETURN */
    uint64_t address;                    /* of the frame */
    framehop_registers_x86_64 registers; /* of the frame; FRAMEHOP_OK writes the caller's */
    uint64_t return_address;             /* FRAMEHOP_OK writes it; it may be 0 */
    uint64_t word_address;               /* FRAMEHOP_NEED_WORD and FRAMEHOP_COULD_NOT_READ_STACK write it */
} framehop_frame_x86_64;

/* The frame at an instruction pointer. */
static inline framehop_frame_x86_64 framehop_frame_of_x86_64(uint64_t unwinder, uint64_t cache, framehop_registers_x86_64 registers) {
    framehop_frame_x86_64 frame = {unwinder, cache, FRAMEHOP_AT_INSTRUCTION, registers.ip, registers, 0, 0};
    return frame;
}

/* Makes the step from a frame. What `frame` says is written is; all else of it stays. The caller gives an address and registers that it
 * had together. */
framehop_status framehop_unwind_frame_x86_64(framehop_session *session, framehop_frame_x86_64 *frame, const framehop_sample *sample);

/* Where a walk over the frames of an unwinder is, and what the last call gave. */
typedef struct {
    uint64_t unwinder;
    uint64_t cache;
    uint64_t place;                      /* FRAMEHOP_STARTS to FRAMEHOP_OVER */
    uint64_t address;
    framehop_registers_x86_64 registers; /* of the frame that it is at, or that it starts from */
    uint64_t count;                      /* how many frames were written */
    uint64_t word_address;               /* FRAMEHOP_NEED_WORD and FRAMEHOP_COULD_NOT_READ_STACK write it */
} framehop_walk_x86_64;

/* A walk that starts at a frame. */
static inline framehop_walk_x86_64 framehop_walk_from_x86_64(uint64_t unwinder, uint64_t cache, framehop_registers_x86_64 registers) {
    framehop_walk_x86_64 walk = {unwinder, cache, FRAMEHOP_STARTS, registers.ip, registers, 0, 0};
    return walk;
}

/* Goes on with a walk: writes the addresses of its next frames, the instruction pointer first and then return addresses, up to the end of
 * the stack, an error of a step, a word that is needed, or `room` frames. The walk is then at the last frame that was written, also after
 * FRAMEHOP_NEED_WORD and errors of a step, and the next call makes the step again; after FRAMEHOP_END_OF_STACK and
 * FRAMEHOP_RETURN_ADDRESS_IS_NULL it is over. The caller gives room for the frames, and a walk as made above or left by the call before. */
framehop_status framehop_next_frames_x86_64(framehop_session *session, framehop_walk_x86_64 *walk, const framehop_sample *sample,
                                            uint64_t *frames, size_t room);

/* ---- aarch64: the same, with its registers */

typedef struct {
    uint64_t lr_mask; /* the bits of a code address: all others, as pointer authentication sets them, are cleared in return addresses */
    uint64_t lr;
    uint64_t sp;
    uint64_t fp;
} framehop_registers_aarch64;

/* The mask for code whose addresses go up to this one: of framehop_max_known_code_address. For 0 it keeps all bits. */
static inline uint64_t framehop_mask_from_max_known_address(uint64_t address) {
    uint64_t mask = UINT64_MAX;
    while (address != 0 && mask >> 1 >= address) mask >>= 1;
    return mask;
}

typedef struct {
    uint64_t unwinder;
    uint64_t cache;
    uint64_t place;
    uint64_t address;
    framehop_registers_aarch64 registers;
    uint64_t return_address;
    uint64_t word_address;
} framehop_frame_aarch64;

/* The frame at an instruction pointer. */
static inline framehop_frame_aarch64 framehop_frame_of_aarch64(uint64_t unwinder, uint64_t cache, uint64_t pc,
                                                               framehop_registers_aarch64 registers) {
    framehop_frame_aarch64 frame = {unwinder, cache, FRAMEHOP_AT_INSTRUCTION, pc, registers, 0, 0};
    return frame;
}

/* As framehop_unwind_frame_x86_64, and so is what the caller owes. */
framehop_status framehop_unwind_frame_aarch64(framehop_session *session, framehop_frame_aarch64 *frame, const framehop_sample *sample);

typedef struct {
    uint64_t unwinder;
    uint64_t cache;
    uint64_t place;
    uint64_t address;
    framehop_registers_aarch64 registers;
    uint64_t count;
    uint64_t word_address;
} framehop_walk_aarch64;

/* A walk that starts at a frame, whose instruction pointer is `pc`. */
static inline framehop_walk_aarch64 framehop_walk_from_aarch64(uint64_t unwinder, uint64_t cache, uint64_t pc,
                                                               framehop_registers_aarch64 registers) {
    framehop_walk_aarch64 walk = {unwinder, cache, FRAMEHOP_STARTS, pc, registers, 0, 0};
    return walk;
}

/* As framehop_next_frames_x86_64, and so is what the caller owes. */
framehop_status framehop_next_frames_aarch64(framehop_session *session, framehop_walk_aarch64 *walk, const framehop_sample *sample,
                                             uint64_t *frames, size_t room);

#ifdef __cplusplus
}
#endif

#endif
