/* Calls of the C library, for scripts/c-calls. "calls commands" makes the calls that lines of standard input ask for, and prints what they
 * answer as ./unwind does; "calls misuse" and "calls refusals" try stale sessions, ids and numbers, and refused memory, and print what was
 * not as it should be. */
#include <inttypes.h>
#include <stdbool.h>
#include <stdio.h>
#include <stdlib.h>
#include <string.h>
#include "framehop.h"

extern long framehop_requests_left;

static int wrong;

static void should(bool is_so, const char *what, int line) {
    if (is_so) return;
    wrong++;
    printf("line %d: not so: %s\n", line, what);
}
#define SHOULD(so) should((so), #so, __LINE__)

/* ---- commands */

#define MOST 4096

static framehop_session session = FRAMEHOP_NO_SESSION;
static uint32_t architecture;
static bool asks;
static char word[1 << 20];

static const char *text(void) {
    if (scanf("%1048575s", word) != 1) exit(2);
    return word;
}

static uint64_t number(void) { return strtoull(text(), NULL, 0); }

/* The bytes that loads lent, until the session is freed. */
static void *lent[MOST];
static size_t lent_count;

static framehop_bytes bytes(void) {
    const char *hex = text();
    size_t length = strcmp(hex, "-") ? strlen(hex) / 2 : 0;
    uint8_t *at = malloc(length ? length : 1);
    for (size_t i = 0; i < length; i++) {
        unsigned byte;
        if (sscanf(hex + 2 * i, "%2x", &byte) != 1) exit(2);
        at[i] = (uint8_t)byte;
    }
    if (lent_count == MOST) exit(2);
    lent[lent_count++] = at;
    return framehop_bytes_of(at, length);
}

static void forget(void) {
    if (session.at) SHOULD(framehop_session_free(&session) == FRAMEHOP_OK);
    while (lent_count) free(lent[--lent_count]);
}

static framehop_word known[MOST];
static framehop_word stack[MOST];
static size_t stack_count;

static framehop_sample read_stack(void) {
    framehop_sample sample = framehop_sample_of(0, NULL, 0);
    uint64_t start = number();
    stack_count = (size_t)number();
    if (stack_count > MOST) exit(2);
    for (size_t i = 0; i < stack_count; i++) {
        stack[i].address = start + 8 * i;
        stack[i].word = number();
        stack[i].is_readable = 1;
    }
    sample.known = asks ? known : stack;
    sample.known_count = asks ? 0 : stack_count;
    sample.asks = asks;
    return sample;
}

/* Tells the word that is needed. */
static void tell(framehop_sample *sample, uint64_t address) {
    if (sample->known_count == MOST) exit(2);
    framehop_word *next = &known[sample->known_count++];
    next->address = address;
    next->is_readable = 0;
    next->word = 0;
    for (size_t i = stack_count; i > 0; i--)
        if (stack[i - 1].address == address) *next = stack[i - 1];
}

static void print_error(framehop_status status, uint64_t address) {
    printf(status == FRAMEHOP_COULD_NOT_READ_STACK ? "%s(0x%" PRIx64 ")" : "%s", framehop_status_name(status), address);
}

static void print_step(framehop_status status, uint64_t found, uint64_t address) {
    if (status == FRAMEHOP_OK) printf("some 0x%" PRIx64, found);
    else if (status == FRAMEHOP_END_OF_STACK) printf("none");
    else {
        printf("error ");
        print_error(status, address);
    }
}

static void step(void) {
    uint64_t unwinder = number(), cache = number(), place = number(), address = number();
    uint64_t a = number(), b = number(), c = number(), d = number();
    framehop_sample sample = read_stack();
    framehop_registers_aarch64 registers = {d, a & d, b, c};
    framehop_frame_x86_64 on_x86_64 = framehop_frame_of_x86_64(unwinder, cache, framehop_registers_of_x86_64(a, b, c));
    framehop_frame_aarch64 on_aarch64 = framehop_frame_of_aarch64(unwinder, cache, address, registers);
    framehop_status status;
    on_x86_64.place = on_aarch64.place = place;
    on_x86_64.address = address;
    if (architecture == FRAMEHOP_X86_64) {
        while ((status = framehop_unwind_frame_x86_64(&session, &on_x86_64, &sample)) == FRAMEHOP_NEED_WORD) tell(&sample, on_x86_64.word_address);
        print_step(status, on_x86_64.return_address, on_x86_64.word_address);
        printf(" ip 0x%" PRIx64 " sp 0x%" PRIx64 " bp 0x%" PRIx64 "\n", on_x86_64.registers.ip, on_x86_64.registers.general[FRAMEHOP_RSP],
               on_x86_64.registers.general[FRAMEHOP_RBP]);
    } else {
        while ((status = framehop_unwind_frame_aarch64(&session, &on_aarch64, &sample)) == FRAMEHOP_NEED_WORD) tell(&sample, on_aarch64.word_address);
        print_step(status, on_aarch64.return_address, on_aarch64.word_address);
        printf(" lr 0x%" PRIx64 " sp 0x%" PRIx64 " fp 0x%" PRIx64 "\n", on_aarch64.registers.lr, on_aarch64.registers.sp, on_aarch64.registers.fp);
    }
}

static void walk(void) {
    uint64_t unwinder = number(), cache = number(), pc = number(), limit = number();
    uint64_t a = number(), b = number(), c = number(), d = number(), frame = 0, written = 0;
    framehop_sample sample = read_stack();
    framehop_registers_aarch64 registers = {d, a, b, c};
    framehop_walk_x86_64 on_x86_64 = framehop_walk_from_x86_64(unwinder, cache, framehop_registers_of_x86_64(a, b, c));
    framehop_walk_aarch64 on_aarch64 = framehop_walk_from_aarch64(unwinder, cache, pc, registers);
    framehop_status status = FRAMEHOP_FULL;
    on_x86_64.address = pc;
    /* One frame at a time: the walk goes on where the call before left it. */
    while (written < limit && (status == FRAMEHOP_FULL || status == FRAMEHOP_NEED_WORD)) {
        status = architecture == FRAMEHOP_X86_64 ? framehop_next_frames_x86_64(&session, &on_x86_64, &sample, &frame, 1)
                                                 : framehop_next_frames_aarch64(&session, &on_aarch64, &sample, &frame, 1);
        if (status == FRAMEHOP_NEED_WORD) tell(&sample, architecture == FRAMEHOP_X86_64 ? on_x86_64.word_address : on_aarch64.word_address);
        if (status == FRAMEHOP_FULL) printf("frame %s 0x%" PRIx64 "\n", written++ ? "ra" : "ip", frame);
    }
    if (status == FRAMEHOP_FULL) printf("limit\n");
    else if (status == FRAMEHOP_END_OF_STACK) printf("end\n");
    else {
        printf("stop ");
        print_error(status, architecture == FRAMEHOP_X86_64 ? on_x86_64.word_address : on_aarch64.word_address);
        printf("\n");
    }
}

static void load(void) {
    uint64_t unwinder = number();
    framehop_module module;
    framehop_section sections[64];
    static char names[64][64];
    memset(&module, 0, sizeof module);
    module.start = number();
    module.end = number();
    module.base = number();
    module.base_svma = number();
    module.lookup = (uint32_t)number();
    module.debug_frame_beside = (uint32_t)number();
    module.code_rules = (uint32_t)number();
    module.sections = sections;
    module.section_count = (size_t)number();
    if (module.section_count > 64) exit(2);
    for (size_t i = 0; i < module.section_count; i++) {
        snprintf(names[i], sizeof names[i], "%s", text());
        sections[i].name = framehop_bytes_of(names[i], strcmp(names[i], "-") ? strlen(names[i]) : 0);
        sections[i].given = number();
        sections[i].start = number();
        sections[i].end = number();
        sections[i].bytes = bytes();
    }
    framehop_status status = framehop_load(&session, unwinder, &module);
    if (status != FRAMEHOP_OK) printf("refused %s\n", framehop_status_name(status));
}

static void commands(void) {
    char command[16];
    uint64_t made;
    while (scanf("%15s", command) == 1) {
        if (!strcmp(command, "session")) {
            forget();
            architecture = (uint32_t)number();
            asks = number() != 0;
            SHOULD(framehop_session_new(&session, architecture) == FRAMEHOP_OK);
        } else if (!strcmp(command, "unwinder")) SHOULD(framehop_add_unwinder(&session, &made) == FRAMEHOP_OK);
        else if (!strcmp(command, "clone")) SHOULD(framehop_clone_unwinder(&session, number(), &made) == FRAMEHOP_OK);
        else if (!strcmp(command, "cache")) SHOULD(framehop_add_cache(&session, number(), &made) == FRAMEHOP_OK);
        else if (!strcmp(command, "load")) load();
        else if (!strcmp(command, "unload")) {
            uint64_t unwinder = number();
            SHOULD(framehop_unload(&session, unwinder, number()) == FRAMEHOP_OK);
        } else if (!strcmp(command, "step")) step();
        else if (!strcmp(command, "walk")) walk();
        else if (!strcmp(command, "stats")) {
            framehop_cache_stats stats;
            SHOULD(framehop_stats(&session, number(), &stats) == FRAMEHOP_OK);
            printf("stats hits %" PRIu64 " empty %" PRIu64 " modules %" PRIu64 " addresses %" PRIu64 "\n", stats.hit_count,
                   stats.miss_empty_slot_count, stats.miss_wrong_modules_count, stats.miss_wrong_address_count);
        } else if (!strcmp(command, "end")) printf("----\n");
        else exit(2);
    }
    forget();
}

/* ---- misuse, and refused memory: over one function, at 0x101000, that stores its caller's frame pointer */

static const uint8_t eh_frame[] = {
    0x10, 0, 0, 0, 0, 0, 0, 0, 1, 0, 1, 0x78, 0x10, 0x0c, 7, 8, 0x90, 1, 0, 0, 0x1c, 0, 0, 0, 0x18, 0, 0, 0,
    0, 0x10, 0, 0, 0, 0, 0, 0, 0x10, 0, 0, 0, 0, 0, 0, 0, 0x41, 0x0e, 0x10, 0x86, 2, 0x43, 0x0d, 6, 0, 0, 0, 0,
};
static const uint64_t words[16] = {0x1, 0x2, 0x100300, 0x4, 0x40, 0x100200, 0x5, 0x6, 0x70, 0x100100, 0x7, 0x8, 0x9, 0xa, 0, 0};

static framehop_module module_of(framehop_section *section, const uint8_t *at, uint32_t lookup) {
    framehop_module module;
    *section = framehop_section_of(".eh_frame", at, sizeof eh_frame, 0, 0);
    memset(&module, 0, sizeof module);
    module.start = module.base = 0x100000;
    module.end = 0x102000;
    module.sections = section;
    module.section_count = 1;
    module.lookup = lookup;
    return module;
}

/* Makes a walk of the example, from its first frame. What can't be done changes nothing. */
static framehop_status walk_with(framehop_session *in, uint64_t unwinder, uint64_t cache, uint64_t place, uint64_t *frames, size_t room, uint64_t *count) {
    framehop_sample sample = framehop_sample_of(0, words, sizeof words);
    framehop_walk_x86_64 state = framehop_walk_from_x86_64(unwinder, cache, framehop_registers_of_x86_64(0x101000, 0x10, 0x20)), before;
    framehop_status status;
    state.place = place;
    state.count = *count;
    state.word_address = 0x5eed;
    before = state;
    status = framehop_next_frames_x86_64(in, &state, &sample, frames, room);
    if (status >= FRAMEHOP_NO_VALUE) SHOULD(!memcmp(&state, &before, sizeof state));
    *count = state.count;
    return status;
}

/* Makes the step of the example. A step without a caller changes nothing. */
static framehop_status step_with(framehop_session *in, uint64_t unwinder, uint64_t cache, uint64_t place, uint64_t address) {
    framehop_sample sample = framehop_sample_of(0, words, sizeof words);
    framehop_frame_x86_64 frame = framehop_frame_of_x86_64(unwinder, cache, framehop_registers_of_x86_64(0x101000, 0x10, 0x20)), before;
    framehop_status status;
    frame.place = place;
    frame.address = address;
    before = frame;
    status = framehop_unwind_frame_x86_64(in, &frame, &sample);
    if (status != FRAMEHOP_OK) SHOULD(!memcmp(&frame, &before, sizeof frame));
    else SHOULD(frame.return_address == 0x100300 && frame.registers.ip == 0x100300 && frame.registers.general[FRAMEHOP_RSP] == 0x18);
    return status;
}

/* Each call on a session without a value. */
static void try_no_session(framehop_session *none) {
    framehop_section section;
    framehop_module module = module_of(&section, eh_frame, FRAMEHOP_LOOKUP_AUTO);
    framehop_sample sample = framehop_sample_of(0, NULL, 0);
    framehop_registers_aarch64 registers = {UINT64_MAX, 1, 2, 3};
    framehop_walk_aarch64 walk_on = framehop_walk_from_aarch64(0, 0, 7, registers);
    framehop_frame_aarch64 frame_on = framehop_frame_of_aarch64(0, 0, 7, registers);
    framehop_cache_stats stats = {1, 2, 3, 4};
    uint64_t id = 0x5eed, frame = 0x5eed, count = 0x5eed;
    SHOULD(framehop_session_free(none) == FRAMEHOP_NO_VALUE);
    SHOULD(framehop_add_unwinder(none, &id) == FRAMEHOP_NO_VALUE);
    SHOULD(framehop_clone_unwinder(none, 0, &id) == FRAMEHOP_NO_VALUE);
    SHOULD(framehop_remove_unwinder(none, 0) == FRAMEHOP_NO_VALUE);
    SHOULD(framehop_add_cache(none, FRAMEHOP_SLOTS, &id) == FRAMEHOP_NO_VALUE);
    SHOULD(framehop_remove_cache(none, 0) == FRAMEHOP_NO_VALUE);
    SHOULD(framehop_stats(none, 0, &stats) == FRAMEHOP_NO_VALUE);
    SHOULD(framehop_load(none, 0, &module) == FRAMEHOP_NO_VALUE);
    SHOULD(framehop_unload(none, 0, 0) == FRAMEHOP_NO_VALUE);
    SHOULD(framehop_max_known_code_address(none, 0, &id) == FRAMEHOP_NO_VALUE);
    SHOULD(step_with(none, 0, 0, FRAMEHOP_AT_INSTRUCTION, 0x101000) == FRAMEHOP_NO_VALUE);
    SHOULD(walk_with(none, 0, 0, FRAMEHOP_STARTS, &frame, 1, &count) == FRAMEHOP_NO_VALUE);
    SHOULD(framehop_unwind_frame_aarch64(none, &frame_on, &sample) == FRAMEHOP_NO_VALUE);
    SHOULD(framehop_next_frames_aarch64(none, &walk_on, &sample, &frame, 1) == FRAMEHOP_NO_VALUE);
    SHOULD(id == 0x5eed && frame == 0x5eed && count == 0x5eed && stats.hit_count == 1);
    SHOULD(none->at == NULL);
}

static void misuse(void) {
    framehop_session in = FRAMEHOP_NO_SESSION, other = FRAMEHOP_NO_SESSION;
    framehop_section section;
    uint8_t *own = malloc(sizeof eh_frame);
    framehop_module module = module_of(&section, memcpy(own, eh_frame, sizeof eh_frame), FRAMEHOP_LOOKUP_AUTO);
    framehop_registers_aarch64 registers = {0xff, 0x1ff, 2, 3};
    framehop_walk_aarch64 walk_on = framehop_walk_from_aarch64(0, 0, 7, registers);
    framehop_frame_aarch64 frame_on = framehop_frame_of_aarch64(0, 0, 7, registers);
    framehop_sample sample = framehop_sample_of(0, NULL, 0);
    uint64_t unwinder, clone, cache, id = 0x5eed, frames[8], count = 0x5eed;
    try_no_session(&in);
    SHOULD(framehop_version() == FRAMEHOP_VERSION);
    SHOULD(framehop_session_new(&in, 2) == FRAMEHOP_BAD_ARGUMENT && in.at == NULL);
    SHOULD(framehop_session_new(&in, FRAMEHOP_X86_64) == FRAMEHOP_OK);
    SHOULD(framehop_session_new(&in, 7) == FRAMEHOP_BAD_ARGUMENT && in.at != NULL);
    SHOULD(framehop_session_new(&in, FRAMEHOP_X86_64) == FRAMEHOP_OK);
    SHOULD(framehop_add_unwinder(&in, &unwinder) == FRAMEHOP_OK && unwinder == 0);
    SHOULD(framehop_add_cache(&in, 3, &id) == FRAMEHOP_BAD_ARGUMENT && id == 0x5eed);
    SHOULD(framehop_add_cache(&in, (uint64_t)1 << 21, &id) == FRAMEHOP_BAD_ARGUMENT);
    SHOULD(framehop_add_cache(&in, UINT64_MAX, &id) == FRAMEHOP_BAD_ARGUMENT);
    SHOULD(framehop_add_cache(&in, FRAMEHOP_SLOTS, &cache) == FRAMEHOP_OK && cache == 0);
    module.lookup = 3;
    SHOULD(framehop_load(&in, unwinder, &module) == FRAMEHOP_BAD_ARGUMENT);
    module.lookup = FRAMEHOP_LOOKUP_INDEX;
    SHOULD(framehop_load(&in, 5, &module) == FRAMEHOP_NO_UNWINDER);
    SHOULD(framehop_load(&in, unwinder, &module) == FRAMEHOP_OK);
    SHOULD(framehop_max_known_code_address(&in, unwinder, &id) == FRAMEHOP_OK && id == 0x102000);
    SHOULD(framehop_clone_unwinder(&in, unwinder, &clone) == FRAMEHOP_OK && clone == 1);
    SHOULD(step_with(&in, unwinder, cache, FRAMEHOP_AT_INSTRUCTION, 0x101000) == FRAMEHOP_OK);
    SHOULD(step_with(&in, 9, cache, FRAMEHOP_AT_INSTRUCTION, 0x101000) == FRAMEHOP_NO_UNWINDER);
    SHOULD(step_with(&in, unwinder, 9, FRAMEHOP_AT_INSTRUCTION, 0x101000) == FRAMEHOP_NO_CACHE);
    SHOULD(step_with(&in, unwinder, cache, FRAMEHOP_STARTS, 0x101000) == FRAMEHOP_BAD_ARGUMENT);
    SHOULD(step_with(&in, unwinder, cache, FRAMEHOP_OVER, 0x101000) == FRAMEHOP_BAD_ARGUMENT);
    SHOULD(step_with(&in, unwinder, cache, FRAMEHOP_AT_RETURN, 0) == FRAMEHOP_BAD_ARGUMENT);
    SHOULD(walk_with(&in, unwinder, cache, 4, frames, 8, &count) == FRAMEHOP_BAD_ARGUMENT && count == 0x5eed);
    SHOULD(walk_with(&in, 9, cache, FRAMEHOP_STARTS, frames, 8, &count) == FRAMEHOP_NO_UNWINDER && count == 0x5eed);
    SHOULD(walk_with(&in, unwinder, 9, FRAMEHOP_STARTS, frames, 8, &count) == FRAMEHOP_NO_CACHE && count == 0x5eed);
    SHOULD(walk_with(&in, unwinder, cache, FRAMEHOP_OVER, frames, 8, &count) == FRAMEHOP_END_OF_STACK && count == 0);
    for (size_t room = 0; room < 8; room++) {
        for (size_t i = 0; i < 8; i++) frames[i] = 0x5eed;
        SHOULD(walk_with(&in, unwinder, cache, FRAMEHOP_STARTS, frames, room, &count) == (room < 5 ? FRAMEHOP_FULL : FRAMEHOP_END_OF_STACK));
        SHOULD(count == (room < 4 ? room : 4));
        for (size_t i = count; i < 8; i++) SHOULD(frames[i] == 0x5eed);
    }
    SHOULD(framehop_unwind_frame_aarch64(&in, &frame_on, &sample) == FRAMEHOP_OTHER_ARCHITECTURE);
    SHOULD(framehop_next_frames_aarch64(&in, &walk_on, &sample, frames, 8) == FRAMEHOP_OTHER_ARCHITECTURE);
    SHOULD(frame_on.registers.lr == 0x1ff && walk_on.registers.lr == 0x1ff && walk_on.place == FRAMEHOP_STARTS);
    SHOULD(framehop_session_new(&other, FRAMEHOP_AARCH64) == FRAMEHOP_OK);
    SHOULD(framehop_next_frames_aarch64(&other, &walk_on, &sample, frames, 8) == FRAMEHOP_NO_UNWINDER);
    SHOULD(framehop_unwind_frame_aarch64(&other, &frame_on, &sample) == FRAMEHOP_NO_UNWINDER);
    SHOULD(frame_on.registers.lr == 0x1ff && walk_on.registers.lr == 0x1ff && walk_on.place == FRAMEHOP_STARTS);
    SHOULD(step_with(&other, 0, 0, FRAMEHOP_AT_INSTRUCTION, 0x101000) == FRAMEHOP_OTHER_ARCHITECTURE);
    SHOULD(framehop_session_free(&other) == FRAMEHOP_OK);
    /* What was let go is told from what lives, and its bytes are read no more: they are freed here. */
    SHOULD(framehop_remove_unwinder(&in, clone) == FRAMEHOP_OK);
    SHOULD(framehop_remove_unwinder(&in, clone) == FRAMEHOP_NO_UNWINDER);
    SHOULD(framehop_unload(&in, unwinder, 0x100000) == FRAMEHOP_OK);
    free(own);
    SHOULD(framehop_unload(&in, unwinder, 0x100000) == FRAMEHOP_OK);
    SHOULD(framehop_unload(&in, clone, 0x100000) == FRAMEHOP_NO_UNWINDER);
    SHOULD(framehop_add_unwinder(&in, &id) == FRAMEHOP_OK && id == 2);
    SHOULD(step_with(&in, clone, cache, FRAMEHOP_AT_INSTRUCTION, 0x101000) == FRAMEHOP_NO_UNWINDER);
    SHOULD(walk_with(&in, unwinder, cache, FRAMEHOP_STARTS, frames, 8, &count) == FRAMEHOP_END_OF_STACK);
    SHOULD(framehop_remove_cache(&in, cache) == FRAMEHOP_OK);
    SHOULD(framehop_remove_cache(&in, cache) == FRAMEHOP_NO_CACHE);
    SHOULD(step_with(&in, unwinder, cache, FRAMEHOP_AT_INSTRUCTION, 0x101000) == FRAMEHOP_NO_CACHE);
    SHOULD(framehop_session_free(&in) == FRAMEHOP_OK);
    SHOULD(framehop_session_free(&in) == FRAMEHOP_NO_VALUE);
    try_no_session(&in);
}

/* All calls with the request of each number refused, and all after it: a refused call is made again with memory, and answers as ever. */
static void refusals(void) {
    framehop_section section;
    framehop_module module = module_of(&section, eh_frame, FRAMEHOP_LOOKUP_INDEX);
    int refused = 0;
    module.tables = 1;
    for (long left = 0; left < 60; left++) {
        framehop_session in = FRAMEHOP_NO_SESSION;
        uint64_t unwinder = 0x5eed, clone = 0x5eed, cache = 0x5eed, frames[8], count = 0;
        framehop_requests_left = left;
#define AGAIN(call, kept)                                          \
        do {                                                       \
            framehop_status status = (call);                       \
            if (status == FRAMEHOP_OUT_OF_MEMORY) {                \
                refused++;                                         \
                SHOULD(kept);                                      \
                framehop_requests_left = -1;                       \
                status = (call);                                   \
            }                                                      \
            SHOULD(status == FRAMEHOP_OK);                         \
        } while (0)
        AGAIN(framehop_session_new(&in, FRAMEHOP_X86_64), in.at == NULL);
        AGAIN(framehop_add_unwinder(&in, &unwinder), unwinder == 0x5eed);
        AGAIN(framehop_add_cache(&in, FRAMEHOP_SLOTS, &cache), cache == 0x5eed);
        AGAIN(framehop_load(&in, unwinder, &module), true);
        AGAIN(framehop_clone_unwinder(&in, unwinder, &clone), clone == 0x5eed);
        SHOULD(unwinder == 0 && clone == 1 && cache == 0);
        framehop_requests_left = 0;
        SHOULD(walk_with(&in, clone, cache, FRAMEHOP_STARTS, frames, 8, &count) == FRAMEHOP_END_OF_STACK && count == 4);
        SHOULD(framehop_session_free(&in) == FRAMEHOP_OK);
        framehop_requests_left = -1;
    }
    SHOULD(refused > 10);
}

int main(int argc, char **argv) {
    if (argc != 2) return 2;
    if (!strcmp(argv[1], "commands")) commands();
    else if (!strcmp(argv[1], "misuse")) misuse();
    else if (!strcmp(argv[1], "refusals")) refusals();
    else return 2;
    return wrong ? 1 : 0;
}
