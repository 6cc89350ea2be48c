/* Makes the module and the walks of crates/bench_steps by the C library, and prints the same lines as bench/walks_original.rs:
 *
 *     walks_c x86_64|aarch64 steps|walks [warm]
 *
 * With `steps` each frame is a call, with `walks` each walk is one. `warm` only makes the walks through one cache, for callgrind. */
#define _POSIX_C_SOURCE 199309L
#include <inttypes.h>
#include <stdbool.h>
#include <stdio.h>
#include <stdlib.h>
#include <string.h>
#include <time.h>
#include "framehop.h"

enum { ROOM = 512 };

/* ---- what is timed, as crates/bench_steps/src/work.rt says */

struct walk {
    uint64_t pc, code, sp, fp, mask;
    uint32_t limit;
    framehop_sample sample;
};

static uint8_t *input;
static size_t left;

static const uint8_t *take(size_t count) {
    if (count > left) exit(2);
    input += count;
    left -= count;
    return input - count;
}

static uint64_t number(size_t size) {
    uint64_t value = 0;
    const uint8_t *bytes = take(size);
    while (size-- > 0) value = value << 8 | bytes[size];
    return value;
}

static void read_input(void) {
    size_t room = 1 << 16, count;
    input = malloc(room);
    while (input && (count = fread(input + left, 1, room - left, stdin)) > 0)
        if ((left += count) == room) input = realloc(input, room *= 2);
    if (!input) exit(2);
}

static void read_walk(struct walk *walk) {
    uint64_t start;
    size_t count;
    walk->pc = number(8);
    walk->code = number(8);
    walk->sp = number(8);
    walk->fp = number(8);
    walk->mask = number(8);
    walk->limit = (uint32_t)number(4);
    start = number(8);
    count = (size_t)number(4);
    walk->sample = framehop_sample_of(start, take(8 * count), 8 * count);
}

static uint32_t rounds, walk_count;
static struct walk *walks;
static framehop_module module;
static framehop_section sections[3];

static void read_work(void) {
    uint64_t text, eh_frame, header;
    size_t length;
    rounds = (uint32_t)number(4);
    module.start = module.base = number(8);
    module.end = number(8);
    text = number(8);
    eh_frame = number(8);
    walk_count = (uint32_t)number(4);
    walks = calloc(walk_count, sizeof *walks);
    if (!walks) exit(2);
    for (uint32_t i = 0; i < walk_count; i++) read_walk(&walks[i]);
    header = number(8);
    length = (size_t)number(4);
    sections[2] = framehop_section_of(".eh_frame_hdr", take(length), length, header, header + length);
    sections[1] = framehop_section_of(".eh_frame", input, left, eh_frame, eh_frame + left);
    sections[0] = framehop_section_of(".text", NULL, 0, text, text + 1);
    module.sections = sections;
    module.section_count = length ? 3 : 2;
}

/* ---- walks */

static framehop_session session = FRAMEHOP_NO_SESSION;
static uint64_t unwinder;
static bool is_x86_64, is_by_steps;
static volatile uint64_t seen;

static void done(framehop_status status) {
    if (status == FRAMEHOP_OK) return;
    fprintf(stderr, "%s\n", framehop_status_name(status));
    exit(2);
}

static framehop_registers_aarch64 registers_of(const struct walk *walk) {
    framehop_registers_aarch64 registers = {walk->mask, walk->code, walk->sp, walk->fp};
    return registers;
}

/* How many frames the steps of a walk give, each of which is a call. */
#define STEPS_OF(arch)                                                                                                        \
    static uint32_t steps_on_##arch(framehop_frame_##arch frame, const struct walk *walk) {                                   \
        uint32_t count = 1;                                                                                                   \
        while (count < walk->limit && framehop_unwind_frame_##arch(&session, &frame, &walk->sample) == FRAMEHOP_OK            \
               && frame.return_address != 0) {                                                                                \
            frame.place = FRAMEHOP_AT_RETURN;                                                                                 \
            seen = frame.address = frame.return_address;                                                                      \
            count++;                                                                                                          \
        }                                                                                                                     \
        return count;                                                                                                         \
    }

STEPS_OF(x86_64)
STEPS_OF(aarch64)

static uint32_t frames_of(uint64_t cache, const struct walk *walk) {
    uint64_t frames[ROOM];
    size_t room = walk->limit < ROOM ? walk->limit : ROOM;
    if (is_x86_64) {
        framehop_registers_x86_64 registers = framehop_registers_of_x86_64(walk->code, walk->sp, walk->fp);
        framehop_frame_x86_64 frame = framehop_frame_of_x86_64(unwinder, cache, registers);
        framehop_walk_x86_64 state = framehop_walk_from_x86_64(unwinder, cache, registers);
        frame.address = state.address = walk->pc;
        if (is_by_steps) return steps_on_x86_64(frame, walk);
        framehop_next_frames_x86_64(&session, &state, &walk->sample, frames, room);
        seen = frames[0];
        return (uint32_t)state.count;
    }
    framehop_frame_aarch64 frame = framehop_frame_of_aarch64(unwinder, cache, walk->pc, registers_of(walk));
    framehop_walk_aarch64 state = framehop_walk_from_aarch64(unwinder, cache, walk->pc, registers_of(walk));
    if (is_by_steps) return steps_on_aarch64(frame, walk);
    framehop_next_frames_aarch64(&session, &state, &walk->sample, frames, room);
    seen = frames[0];
    return (uint32_t)state.count;
}

static uint32_t frames_of_each(uint64_t cache) {
    uint32_t count = 0;
    for (uint32_t i = 0; i < walk_count; i++) count += frames_of(cache, &walks[i]);
    return count;
}

/* ---- times */

static uint64_t now(void) {
    struct timespec it;
    clock_gettime(CLOCK_MONOTONIC, &it);
    return (uint64_t)it.tv_sec * 1000000000 + (uint64_t)it.tv_nsec;
}

static uint64_t least(uint64_t one, uint64_t other) { return one < other ? one : other; }

static uint64_t making(void) {
    uint64_t most = UINT64_MAX;
    for (uint32_t i = 0; i < rounds; i++) {
        uint64_t start = now();
        done(framehop_load(&session, unwinder, &module));
        most = least(most, now() - start);
        done(framehop_unload(&session, unwinder, module.start));
    }
    return most;
}

int main(int argc, char **argv) {
    uint64_t made, cache, other, warm = UINT64_MAX, fresh = UINT64_MAX, with_making = UINT64_MAX;
    bool is_warm_alone = argc == 4 && !strcmp(argv[3], "warm");
    if (argc < 3) return 2;
    is_x86_64 = !strcmp(argv[1], "x86_64");
    is_by_steps = !strcmp(argv[2], "steps");
    read_input();
    read_work();
    done(framehop_session_new(&session, is_x86_64 ? FRAMEHOP_X86_64 : FRAMEHOP_AARCH64));
    done(framehop_add_unwinder(&session, &unwinder));
    made = is_warm_alone ? 0 : making();
    done(framehop_load(&session, unwinder, &module));
    done(framehop_add_cache(&session, FRAMEHOP_SLOTS, &cache));
    printf("%" PRIu32 " frames\n", frames_of_each(cache));
    for (uint32_t i = 0; i < rounds; i++) {
        uint64_t start = now(), all, taken = 0;
        seen = frames_of_each(cache);
        warm = least(warm, now() - start);
        if (is_warm_alone) continue;
        all = now();
        for (uint32_t k = 0; k < walk_count; k++) {
            done(framehop_add_cache(&session, FRAMEHOP_SLOTS, &other));
            start = now();
            seen = frames_of(other, &walks[k]);
            taken += now() - start;
            done(framehop_remove_cache(&session, other));
        }
        fresh = least(fresh, taken);
        with_making = least(with_making, now() - all);
    }
    if (!is_warm_alone)
        printf("module %" PRIu64 " ns, warm %" PRIu64 " ns, fresh %" PRIu64 " ns, with making %" PRIu64 " ns\n", made, warm, fresh, with_making);
    return 0;
}
