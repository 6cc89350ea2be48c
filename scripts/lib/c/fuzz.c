/* Random calls of the C library, for scripts/c-fuzz. "fuzz CALLS SEED" reads modules and frames from standard input, and makes so many
 * calls, of which each has what framehop.h asks of its caller. It keeps what each session has to have, and prints what was not so; then how
 * many calls there were, and how many of them answered each status.
 *
 * What is lent ends where memory ends that can't be read, and can't be read either once the library has to have let it go. What a call
 * is given beside ends there too, and behind the frames that a walk may write there is no memory. */
#define _DEFAULT_SOURCE
#include <inttypes.h>
#include <stdbool.h>
#include <stdio.h>
#include <stdlib.h>
#include <string.h>
#include <sys/mman.h>
#include "framehop.h"

extern long framehop_requests_left;

enum { SESSIONS = 5, UNWINDERS = 40, CACHES = 12, MODULES = 12, PARTS = 8, FILES = 4096, SPOTS = 16384, WORDS = 512, ROOM = 24, PAGE = 4096 };
static const uint8_t UNTOUCHED = 0xa5;

/* ---- what was not so */

static uint64_t seed, calls, wrong, of_status[64];

static void should(bool is_so, const char *what, int line) {
    if (is_so) return;
    if (wrong++ < 20) printf("line %d, call %" PRIu64 " of seed %" PRIu64 ": not so: %s\n", line, calls, seed, what);
}
#define SHOULD(so) should((so), #so, __LINE__)

/* ---- numbers by chance */

static uint64_t state;

static uint64_t any(void) {
    uint64_t x = state += 0x9e3779b97f4a7c15;
    x = (x ^ (x >> 30)) * 0xbf58476d1ce4e5b9;
    x = (x ^ (x >> 27)) * 0x94d049bb133111eb;
    return x ^ (x >> 31);
}

static uint64_t below(uint64_t most) { return any() % most; }
static bool once_in(uint64_t many) { return below(many) == 0; }

/* ---- memory behind which there is none */

static uint8_t *mapped(size_t size) {
    uint8_t *at = mmap(NULL, size, PROT_READ | PROT_WRITE, MAP_PRIVATE | MAP_ANONYMOUS, -1, 0);
    if (at == MAP_FAILED) exit(2);
    return at;
}

static size_t pages_of(size_t length) { return (length + PAGE - 1) / PAGE * PAGE; }

/* Room for so many bytes, which end where no memory is. */
static uint8_t *ending(size_t length) {
    size_t size = pages_of(length);
    uint8_t *at = mapped(size + PAGE);
    if (mprotect(at + size, PAGE, PROT_NONE)) exit(2);
    return at + size - length;
}

static void let_go(uint8_t *at, size_t length) {
    size_t size = pages_of(length);
    if (munmap(at + length - size, size + PAGE)) exit(2);
}

/* ---- modules and frames of real documents */

struct part {
    char name[24];
    uint64_t given, start, end;
    uint8_t *bytes;
    size_t length;
};

struct file {
    uint32_t architecture;
    uint64_t start, end, base, base_svma;
    size_t count;
    struct part parts[PARTS];
};

/* A frame with the words of its stack. */
struct spot {
    uint32_t architecture;
    uint64_t place, address, registers[4], stack;
    size_t count;
    uint64_t *words;
};

static struct file files[FILES];
static struct spot spots[SPOTS];
static size_t file_count, spot_count;
static char word[1 << 20];

static const char *text(void) {
    if (scanf("%1048575s", word) != 1) exit(2);
    return word;
}

static uint64_t number(void) { return strtoull(text(), NULL, 0); }

static void read_part(struct part *part) {
    snprintf(part->name, sizeof part->name, "%s", text());
    part->given = number();
    part->start = number();
    part->end = number();
    const char *hex = text();
    part->length = strcmp(hex, "-") ? strlen(hex) / 2 : 0;
    part->bytes = malloc(part->length ? part->length : 1);
    for (size_t i = 0; i < part->length; i++) {
        unsigned byte;
        if (sscanf(hex + 2 * i, "%2x", &byte) != 1) exit(2);
        part->bytes[i] = (uint8_t)byte;
    }
}

static void read_file(struct file *file) {
    file->architecture = (uint32_t)number();
    file->start = number();
    file->end = number();
    file->base = number();
    file->base_svma = number();
    file->count = (size_t)number();
    if (file->count > PARTS) exit(2);
    for (size_t i = 0; i < file->count; i++) read_part(&file->parts[i]);
}

static void read_spot(struct spot *spot) {
    spot->architecture = (uint32_t)number();
    spot->place = number();
    spot->address = number();
    for (size_t i = 0; i < 4; i++) spot->registers[i] = number();
    spot->stack = number();
    spot->count = (size_t)number();
    if (spot->count > WORDS) exit(2);
    spot->words = malloc(spot->count ? 8 * spot->count : 1);
    for (size_t i = 0; i < spot->count; i++) spot->words[i] = number();
}

static void read_all(void) {
    char kind[16];
    while (scanf("%15s", kind) == 1) {
        if (!strcmp(kind, "module") && file_count < FILES) read_file(&files[file_count++]);
        else if (!strcmp(kind, "frame") && spot_count < SPOTS) read_spot(&spots[spot_count++]);
        else exit(2);
    }
    if (!file_count || !spot_count) exit(2);
}

/* ---- what sessions have to have */

/* A module that was loaded: its bytes are lent while unwinders have it. */
struct loaded {
    size_t users;
    framehop_module module;
    framehop_section sections[PARTS];
    char names[PARTS][24];
};

struct unwinder {
    bool lives;
    size_t count;
    struct loaded *modules[MODULES]; /* by their starts, of equal ones the last first */
};

struct in_session {
    framehop_session handle;
    bool lives;
    uint32_t architecture;
    uint64_t unwinder_count, cache_count;
    struct unwinder unwinders[UNWINDERS];
    struct { bool lives; uint64_t look_ups; } caches[CACHES];
};

static struct in_session sessions[SESSIONS];

static void drop_module(struct loaded *it) {
    if (--it->users) return;
    for (size_t i = 0; i < it->module.section_count; i++)
        if (it->sections[i].bytes.length) let_go((uint8_t *)(uintptr_t)it->sections[i].bytes.bytes, it->sections[i].bytes.length);
    free(it);
}

static void drop_unwinder(struct unwinder *it) {
    while (it->count) drop_module(it->modules[--it->count]);
    it->lives = false;
}

static void drop_session(struct in_session *in) {
    for (size_t i = 0; i < in->unwinder_count; i++) drop_unwinder(&in->unwinders[i]);
    in->lives = false;
    in->unwinder_count = in->cache_count = 0;
}

static bool has_unwinder(const struct in_session *in, uint64_t id) { return id < in->unwinder_count && in->unwinders[id].lives; }
static bool has_cache(const struct in_session *in, uint64_t id) { return id < in->cache_count && in->caches[id].lives; }

/* An id that mostly lives, and else was let go, or never made. */
static uint64_t unwinder_of(const struct in_session *in) {
    static const uint64_t others[] = {0, 1, 99, UINT64_MAX, (uint64_t)1 << 32};
    for (int i = 0; in->unwinder_count && i < 8; i++) {
        uint64_t id = below(in->unwinder_count);
        if (in->unwinders[id].lives && !once_in(24)) return id;
    }
    return others[below(5)];
}

static uint64_t cache_of(const struct in_session *in) {
    for (int i = 0; in->cache_count && i < 8; i++) {
        uint64_t id = below(in->cache_count);
        if (in->caches[id].lives && !once_in(24)) return id;
    }
    return once_in(2) ? below(CACHES) : any() >> below(64);
}

/* ---- calls */

static bool refuses;

/* The next call may be refused memory. */
static void may_refuse(void) {
    refuses = once_in(24);
    framehop_requests_left = refuses ? (long)below(5) : -1;
}

/* Counts a call, which answers as it has to, or that there is no memory if it was refused some. Returns whether it is done. */
static bool answers(framehop_status status, framehop_status wanted, bool takes_memory, int line) {
    framehop_requests_left = -1;
    calls++;
    if (status < 64) of_status[status]++;
    if (refuses && takes_memory && wanted == FRAMEHOP_OK && status == FRAMEHOP_OUT_OF_MEMORY) return false;
    if (status != wanted && wrong < 20) printf("%s in place of %s\n", framehop_status_name(status), framehop_status_name(wanted));
    should(status == wanted, "the status", line);
    return status == FRAMEHOP_OK;
}
#define ANSWERS(call, wanted, takes_memory) answers((call), (wanted), (takes_memory), __LINE__)

static framehop_status if_lives(const struct in_session *in, framehop_status status) { return in->lives ? status : FRAMEHOP_NO_VALUE; }

static void new_session(struct in_session *in) {
    uint32_t architecture = once_in(32) ? 2 + (uint32_t)below(9) : (uint32_t)below(2);
    may_refuse();
    if (!ANSWERS(framehop_session_new(&in->handle, architecture), architecture < 2 ? FRAMEHOP_OK : FRAMEHOP_BAD_ARGUMENT, true)) return;
    drop_session(in);
    in->lives = true;
    in->architecture = architecture;
}

static void free_session(struct in_session *in) {
    bool lived = in->lives;
    may_refuse();
    if (ANSWERS(framehop_session_free(&in->handle), if_lives(in, FRAMEHOP_OK), false)) drop_session(in);
    SHOULD(in->handle.at == NULL);
    if (lived && once_in(2)) free_session(in);
}

static void add_unwinder(struct in_session *in) {
    uint64_t id = 0x5eed, made = in->unwinder_count;
    if (made == UNWINDERS) {
        free_session(in);
        return;
    }
    may_refuse();
    if (ANSWERS(framehop_add_unwinder(&in->handle, &id), if_lives(in, FRAMEHOP_OK), true)) {
        in->unwinders[made].lives = true;
        in->unwinder_count++;
    } else made = 0x5eed;
    SHOULD(id == made);
}

static void clone_unwinder(struct in_session *in) {
    uint64_t of = unwinder_of(in), id = 0x5eed, made = in->unwinder_count;
    if (made == UNWINDERS) {
        free_session(in);
        return;
    }
    may_refuse();
    if (ANSWERS(framehop_clone_unwinder(&in->handle, of, &id), if_lives(in, has_unwinder(in, of) ? FRAMEHOP_OK : FRAMEHOP_NO_UNWINDER), true)) {
        in->unwinders[made] = in->unwinders[of];
        for (size_t i = 0; i < in->unwinders[of].count; i++) in->unwinders[of].modules[i]->users++;
        in->unwinder_count++;
    } else made = 0x5eed;
    SHOULD(id == made);
}

static void remove_unwinder(struct in_session *in) {
    uint64_t id = unwinder_of(in);
    may_refuse();
    if (ANSWERS(framehop_remove_unwinder(&in->handle, id), if_lives(in, has_unwinder(in, id) ? FRAMEHOP_OK : FRAMEHOP_NO_UNWINDER), false))
        drop_unwinder(&in->unwinders[id]);
}

static void add_cache(struct in_session *in) {
    static const uint64_t slots[] = {FRAMEHOP_SLOTS, FRAMEHOP_SLOTS, 2, 4, 64, 1024, 0, 1, 3, 510, (uint64_t)1 << 21, UINT64_MAX};
    size_t which = (size_t)below(once_in(8) ? 12 : 6);
    uint64_t id = 0x5eed, made = in->cache_count;
    if (made == CACHES) {
        free_session(in);
        return;
    }
    may_refuse();
    if (ANSWERS(framehop_add_cache(&in->handle, slots[which], &id), which < 6 ? if_lives(in, FRAMEHOP_OK) : FRAMEHOP_BAD_ARGUMENT, true)) {
        in->caches[made].lives = true;
        in->caches[made].look_ups = 0;
        in->cache_count++;
    } else made = 0x5eed;
    SHOULD(id == made);
}

static void remove_cache(struct in_session *in) {
    uint64_t id = cache_of(in);
    may_refuse();
    if (ANSWERS(framehop_remove_cache(&in->handle, id), if_lives(in, has_cache(in, id) ? FRAMEHOP_OK : FRAMEHOP_NO_CACHE), false))
        in->caches[id].lives = false;
}

/* The counts of a cache are those of the look-ups that were made through it, and through no other. */
static void stats(struct in_session *in) {
    uint64_t id = cache_of(in);
    framehop_cache_stats it = {1, 2, 3, 4};
    may_refuse();
    if (ANSWERS(framehop_stats(&in->handle, id, &it), if_lives(in, has_cache(in, id) ? FRAMEHOP_OK : FRAMEHOP_NO_CACHE), false))
        SHOULD(it.hit_count + it.miss_empty_slot_count + it.miss_wrong_modules_count + it.miss_wrong_address_count == in->caches[id].look_ups);
    else SHOULD(it.hit_count == 1 && it.miss_empty_slot_count == 2 && it.miss_wrong_modules_count == 3 && it.miss_wrong_address_count == 4);
}

/* The bytes of a section to lend: some are damaged, some cut off. */
static framehop_bytes lend(const struct part *part, bool is_damaged) {
    size_t length = is_damaged && part->length && once_in(3) ? (size_t)below(part->length) : part->length;
    if (!length) return framehop_bytes_of(word, 0);
    uint8_t *at = ending(length);
    memcpy(at, part->bytes, length);
    for (uint64_t left = is_damaged ? below(6) : 0; left; left--) at[below(length)] = once_in(2) ? (uint8_t)any() : at[below(length)];
    if (mprotect(at + length - pages_of(length), pages_of(length), PROT_READ)) exit(2);
    return framehop_bytes_of(at, length);
}

static struct loaded *module_by_chance(void) {
    const struct file *file = &files[below(file_count)];
    struct loaded *it = calloc(1, sizeof *it);
    bool is_damaged = once_in(3);
    if (!it) exit(2);
    it->users = 1;
    it->module.start = once_in(16) ? any() >> below(64) : file->start;
    it->module.end = once_in(16) ? any() >> below(64) : file->end;
    it->module.base = once_in(16) ? any() >> below(64) : file->base;
    it->module.base_svma = file->base_svma;
    it->module.lookup = once_in(32) ? (uint32_t)any() | 4 : (uint32_t)below(3);
    it->module.tables = once_in(2);
    it->module.debug_frame_beside = once_in(2);
    it->module.sections = it->sections;
    for (size_t i = 0; i < file->count; i++) {
        framehop_section *section = &it->sections[it->module.section_count];
        if (is_damaged && once_in(6)) continue;
        memcpy(it->names[it->module.section_count], file->parts[i].name, sizeof it->names[0]);
        section->name = framehop_bytes_of(it->names[it->module.section_count], strlen(file->parts[i].name));
        section->bytes = lend(&file->parts[i], is_damaged);
        section->start = file->parts[i].start;
        section->end = file->parts[i].end;
        section->given = file->parts[i].given;
        it->module.section_count++;
    }
    return it;
}

static void load(struct in_session *in) {
    uint64_t id = unwinder_of(in);
    struct loaded *it = module_by_chance();
    framehop_status wanted = it->module.lookup > FRAMEHOP_LOOKUP_SCAN ? FRAMEHOP_BAD_ARGUMENT : has_unwinder(in, id) ? FRAMEHOP_OK : FRAMEHOP_NO_UNWINDER;
    struct unwinder *unwinder = has_unwinder(in, id) ? &in->unwinders[id] : NULL;
    if (unwinder && unwinder->count == MODULES) {
        drop_module(it);
        remove_unwinder(in);
        return;
    }
    may_refuse();
    if (!ANSWERS(framehop_load(&in->handle, id, &it->module), if_lives(in, wanted), true)) {
        drop_module(it);
        return;
    }
    size_t at = 0;
    while (at < unwinder->count && unwinder->modules[at]->module.start < it->module.start) at++;
    memmove(&unwinder->modules[at + 1], &unwinder->modules[at], (unwinder->count++ - at) * sizeof unwinder->modules[0]);
    unwinder->modules[at] = it;
}

static void unload(struct in_session *in) {
    uint64_t id = unwinder_of(in);
    struct unwinder *unwinder = has_unwinder(in, id) ? &in->unwinders[id] : NULL;
    uint64_t start = unwinder && unwinder->count && !once_in(8) ? unwinder->modules[below(unwinder->count)]->module.start : any() >> below(64);
    may_refuse();
    if (!ANSWERS(framehop_unload(&in->handle, id, start), if_lives(in, unwinder ? FRAMEHOP_OK : FRAMEHOP_NO_UNWINDER), false)) return;
    for (size_t i = unwinder->count; i-- > 0;) {
        if (unwinder->modules[i]->module.start != start) continue;
        drop_module(unwinder->modules[i]);
        memmove(&unwinder->modules[i], &unwinder->modules[i + 1], (--unwinder->count - i) * sizeof unwinder->modules[0]);
        break;
    }
}

static void last_end(struct in_session *in) {
    uint64_t id = unwinder_of(in), end = 0x5eed, wanted = 0x5eed;
    struct unwinder *unwinder = has_unwinder(in, id) ? &in->unwinders[id] : NULL;
    may_refuse();
    if (ANSWERS(framehop_max_known_code_address(&in->handle, id, &end), if_lives(in, unwinder ? FRAMEHOP_OK : FRAMEHOP_NO_UNWINDER), false))
        wanted = unwinder->count ? unwinder->modules[unwinder->count - 1]->module.end : 0;
    SHOULD(end == wanted);
}

/* ---- stacks */

/* A stack as a call is given it: a copy, words beside it, and all words from which those that are asked for are told. */
struct stack {
    framehop_sample sample;
    const struct spot *spot;
};

static uint8_t *room_of_bytes, *room_of_words, *room_of_frames; /* where they end */

static framehop_word word_at(const struct spot *spot, uint64_t address) {
    framehop_word it = {address, 0, 0};
    uint64_t offset = address - spot->stack;
    if (address < spot->stack || spot->count == 0 || offset > 8 * (spot->count - 1)) return it;
    memcpy(&it.word, (const uint8_t *)spot->words + offset, 8);
    it.is_readable = 1 + below(9);
    return it;
}

/* Adds a word to those that are known, which end where they ended. */
static void tell(struct stack *stack, uint64_t address) {
    size_t size = stack->sample.known_count * sizeof(framehop_word);
    uint8_t *at = room_of_words - size;
    if (stack->sample.known_count == 4 * WORDS) exit(2);
    framehop_word it = word_at(stack->spot, address);
    memmove(at - sizeof it, at, size);
    memcpy(room_of_words - sizeof it, &it, sizeof it);
    stack->sample.known_count++;
    stack->sample.known = (const framehop_word *)(uintptr_t)(at - sizeof it);
}

/* All of the stack: copied; or a part of it, with some words beside it, if others are asked for. */
static struct stack stack_of(const struct spot *spot, bool asks) {
    size_t first = asks ? (size_t)below(spot->count + 1) : 0, count = asks ? (size_t)below(spot->count - first + 1) : spot->count;
    struct stack stack = {framehop_sample_of(0, NULL, 0), spot};
    memcpy(room_of_bytes - 8 * count, spot->words + first, 8 * count);
    stack.sample = framehop_sample_of(spot->stack + 8 * first, room_of_bytes - 8 * count, 8 * count);
    for (size_t i = 0; i < spot->count; i++)
        if (once_in(4)) tell(&stack, spot->stack + 8 * i);
    stack.sample.asks = asks ? 1 + below(3) : 0;
    return stack;
}

static bool may_be_of_step(framehop_status status) {
    return status == FRAMEHOP_OK || status == FRAMEHOP_END_OF_STACK || status == FRAMEHOP_FULL
           || (status >= FRAMEHOP_COULD_NOT_READ_STACK && status <= FRAMEHOP_OUT_OF_MEMORY);
}

/* What a step or a walk has to answer that can't be made, else FRAMEHOP_OK. */
static framehop_status refused(const struct in_session *in, uint32_t architecture, bool is_place, uint64_t unwinder, uint64_t cache) {
    if (!is_place) return FRAMEHOP_BAD_ARGUMENT;
    if (!in->lives) return FRAMEHOP_NO_VALUE;
    if (in->architecture != architecture) return FRAMEHOP_OTHER_ARCHITECTURE;
    if (!has_unwinder(in, unwinder)) return FRAMEHOP_NO_UNWINDER;
    return has_cache(in, cache) ? FRAMEHOP_OK : FRAMEHOP_NO_CACHE;
}

/* A session with a copy of an unwinder, and a cache, both new: 0 and 0. */
static framehop_session anew(const struct in_session *in, uint64_t unwinder) {
    framehop_session made = FRAMEHOP_NO_SESSION;
    uint64_t id;
    const struct unwinder *from = &in->unwinders[unwinder];
    framehop_requests_left = -1;
    SHOULD(framehop_session_new(&made, in->architecture) == FRAMEHOP_OK && framehop_add_unwinder(&made, &id) == FRAMEHOP_OK);
    SHOULD(framehop_add_cache(&made, FRAMEHOP_SLOTS, &id) == FRAMEHOP_OK);
    for (size_t i = from->count; i-- > 0;) SHOULD(framehop_load(&made, 0, &from->modules[i]->module) == FRAMEHOP_OK);
    calls += 3 + from->count;
    return made;
}

/* Steps and walks on an architecture. Each is made again with all words known, through another cache, and now and then in a new session:
 * it has to answer the same. */
#define CALLS_OF(arch, number)                                                                                                              \
    /* Makes a call as often as a word is needed. Returns the last status, and counts the calls. */                                         \
    static framehop_status made_step_##arch(framehop_session *handle, framehop_frame_##arch *frame, struct stack *stack, uint64_t *count) { \
        for (*count = 1;; ++*count) {                                                                                                       \
            framehop_frame_##arch before = *frame;                                                                                          \
            framehop_status status = framehop_unwind_frame_##arch(handle, frame, &stack->sample);                                           \
            calls++;                                                                                                                        \
            if (status < 64) of_status[status]++;                                                                                           \
            before.word_address = frame->word_address;                                                                                      \
            if (status != FRAMEHOP_OK) SHOULD(!memcmp(&before, frame, sizeof before));                                                      \
            if (status != FRAMEHOP_NEED_WORD) return status;                                                                                \
            SHOULD(stack->sample.asks);                                                                                                     \
            tell(stack, frame->word_address);                                                                                               \
        }                                                                                                                                   \
    }                                                                                                                                       \
                                                                                                                                            \
    /* Walks up to so many frames, with room for some at a time, as often as a word is needed. */                                           \
    static framehop_status made_walk_##arch(struct in_session *in, framehop_walk_##arch *walk, struct stack *stack, uint64_t limit,         \
                                            uint64_t room, uint64_t *into, uint64_t *total) {                                               \
        for (*total = 0;;) {                                                                                                                \
            size_t most = (size_t)(room < limit - *total ? room : limit - *total);                                                          \
            uint64_t *frames = (uint64_t *)(uintptr_t)(room_of_frames - 8 * most);                                                          \
            uint64_t place = walk->place;                                                                                                   \
            memset(room_of_frames - PAGE, UNTOUCHED, PAGE);                                                                                 \
            framehop_status status = framehop_next_frames_##arch(&in->handle, walk, &stack->sample, frames, most);                          \
            calls++;                                                                                                                        \
            if (status < 64) of_status[status]++;                                                                                           \
            if (status >= FRAMEHOP_NO_VALUE) return status;                                                                                 \
            SHOULD(walk->count <= most && (status != FRAMEHOP_FULL || walk->count == most));                                                \
            for (const uint8_t *at = room_of_frames - PAGE; at < (uint8_t *)frames; at++) SHOULD(*at == UNTOUCHED);                         \
            for (const uint8_t *at = (uint8_t *)(frames + walk->count); at < room_of_frames; at++) SHOULD(*at == UNTOUCHED);                \
            memcpy(into + *total, frames, 8 * walk->count);                                                                                 \
            *total += walk->count;                                                                                                          \
            /* (each frame but the first is a look-up, and so is the one that gives none) */                                                \
            uint64_t moves = walk->count + (status != FRAMEHOP_FULL && place != FRAMEHOP_OVER);                                             \
            if (has_cache(in, walk->cache)) in->caches[walk->cache].look_ups += moves - (place == FRAMEHOP_STARTS && moves);                \
            if (status == FRAMEHOP_NEED_WORD) tell(stack, walk->word_address);                                                              \
            else if (status != FRAMEHOP_FULL || !most) return status;                                                                       \
        }                                                                                                                                   \
    }                                                                                                                                       \
                                                                                                                                            \
    static void step_##arch(struct in_session *in, const struct spot *spot, framehop_frame_##arch frame) {                                  \
        bool is_place = frame.place == FRAMEHOP_AT_INSTRUCTION || (frame.place == FRAMEHOP_AT_RETURN && frame.address);                     \
        framehop_status wanted = refused(in, number, is_place, frame.unwinder, frame.cache);                                                \
        struct stack stack = stack_of(spot, once_in(2));                                                                                    \
        framehop_frame_##arch first = frame, again = frame;                                                                                 \
        uint64_t count;                                                                                                                     \
        may_refuse();                                                                                                                       \
        framehop_status status = made_step_##arch(&in->handle, &first, &stack, &count);                                                     \
        framehop_requests_left = -1;                                                                                                        \
        if (wanted != FRAMEHOP_OK) {                                                                                                        \
            SHOULD(status == wanted && first.word_address == frame.word_address);                                                           \
            return;                                                                                                                         \
        }                                                                                                                                   \
        in->caches[frame.cache].look_ups += count;                                                                                          \
        SHOULD(may_be_of_step(status) && status != FRAMEHOP_FULL && status != FRAMEHOP_RETURN_ADDRESS_IS_NULL);                             \
        SHOULD(refuses || status != FRAMEHOP_OUT_OF_MEMORY);                                                                                \
        again.cache = cache_of(in);                                                                                                         \
        if (!has_cache(in, again.cache)) again.cache = frame.cache;                                                                         \
        stack = stack_of(spot, once_in(4));                                                                                                 \
        framehop_status other = made_step_##arch(&in->handle, &again, &stack, &count);                                                      \
        in->caches[again.cache].look_ups += count;                                                                                          \
        again.cache = frame.cache;                                                                                                          \
        /* (a word that was asked for leaves its address) */                                                                                \
        if (status != FRAMEHOP_COULD_NOT_READ_STACK) again.word_address = first.word_address;                                               \
        if (status != FRAMEHOP_OUT_OF_MEMORY) SHOULD(status == other && !memcmp(&first, &again, sizeof first));                             \
        /* A walk from there makes the same step. */                                                                                        \
        framehop_walk_##arch walk = {frame.unwinder, frame.cache, frame.place, frame.address, frame.registers, 0, 0};                       \
        uint64_t caller;                                                                                                                    \
        stack = stack_of(spot, once_in(4));                                                                                                 \
        framehop_status moved = made_walk_##arch(in, &walk, &stack, 1, 1, &caller, &count);                                                 \
        if (other != FRAMEHOP_OK) SHOULD(moved == other && count == 0);                                                                     \
        else if (again.return_address == 0) SHOULD(moved == FRAMEHOP_RETURN_ADDRESS_IS_NULL && count == 0);                                 \
        else SHOULD(moved == FRAMEHOP_FULL && count == 1 && caller == again.return_address);                                                \
        SHOULD(!memcmp(&walk.registers, &again.registers, sizeof walk.registers));                                                          \
        if (!once_in(32)) return;                                                                                                           \
        framehop_session made = anew(in, frame.unwinder);                                                                                   \
        framehop_frame_##arch third = frame;                                                                                                \
        third.unwinder = third.cache = 0;                                                                                                   \
        stack = stack_of(spot, false);                                                                                                      \
        SHOULD(made_step_##arch(&made, &third, &stack, &count) == other);                                                                   \
        SHOULD(!memcmp(&third.registers, &again.registers, sizeof third.registers) && third.return_address == again.return_address);        \
        SHOULD(framehop_session_free(&made) == FRAMEHOP_OK);                                                                                \
    }                                                                                                                                       \
                                                                                                                                            \
    static void walk_##arch(struct in_session *in, const struct spot *spot, framehop_walk_##arch walk) {                                    \
        bool is_place = walk.place <= FRAMEHOP_OVER && (walk.place != FRAMEHOP_AT_RETURN || walk.address);                                  \
        framehop_status wanted = refused(in, number, is_place, walk.unwinder, walk.cache);                                                  \
        struct stack stack = stack_of(spot, once_in(2));                                                                                    \
        framehop_walk_##arch first = walk, again = walk;                                                                                    \
        uint64_t one[ROOM], other[ROOM], count, counted;                                                                                    \
        may_refuse();                                                                                                                       \
        framehop_status status = made_walk_##arch(in, &first, &stack, ROOM, 1 + below(ROOM), one, &count);                                  \
        framehop_requests_left = -1;                                                                                                        \
        if (wanted != FRAMEHOP_OK) {                                                                                                        \
            SHOULD(status == wanted && !memcmp(&first, &walk, sizeof walk));                                                                \
            return;                                                                                                                         \
        }                                                                                                                                   \
        SHOULD(may_be_of_step(status) && status != FRAMEHOP_OK && (refuses || status != FRAMEHOP_OUT_OF_MEMORY));                           \
        if (status == FRAMEHOP_OUT_OF_MEMORY) return;                                                                                       \
        again.cache = cache_of(in);                                                                                                         \
        if (!has_cache(in, again.cache)) again.cache = walk.cache;                                                                          \
        stack = stack_of(spot, once_in(4));                                                                                                 \
        SHOULD(made_walk_##arch(in, &again, &stack, ROOM, 1 + below(ROOM), other, &counted) == status && counted == count);                 \
        SHOULD(!memcmp(one, other, 8 * count) && first.place == again.place && first.address == again.address);                             \
        SHOULD(!memcmp(&first.registers, &again.registers, sizeof first.registers));                                                        \
    }

CALLS_OF(x86_64, FRAMEHOP_X86_64)
CALLS_OF(aarch64, FRAMEHOP_AARCH64)

/* A frame like one of a document: some words, addresses and registers are others. */
static struct spot near(const struct spot *from) {
    static uint64_t words[WORDS];
    struct spot it = *from;
    memcpy(words, from->words, 8 * from->count);
    it.words = words;
    if (once_in(3)) it.address += below(64) - 32;
    if (once_in(6)) it.registers[1 + below(2)] += 8 * (below(9) - 4);
    if (once_in(24)) it.registers[below(4)] = any() >> below(64);
    if (once_in(24)) it.address = any() >> below(64);
    if (once_in(8)) it.place = below(5);
    if (once_in(40)) it.stack = 0 - 8 * it.count - below(64);
    for (uint64_t left = once_in(3) && it.count ? 1 + below(4) : 0; left; left--) {
        const uint64_t others[] = {0, it.address, it.stack + 8 * below(it.count), words[below(it.count)], any() >> below(64)};
        words[below(it.count)] = others[below(5)];
    }
    return it;
}

static void step_or_walk(struct in_session *in) {
    struct spot it = near(&spots[below(spot_count)]);
    uint64_t unwinder = unwinder_of(in), cache = cache_of(in);
    bool is_walk = once_in(2), is_other = once_in(40);
    uint64_t place = is_walk && it.place == FRAMEHOP_AT_INSTRUCTION && once_in(2) ? FRAMEHOP_STARTS : it.place;
    if ((in->architecture == FRAMEHOP_X86_64) != is_other) {
        framehop_registers_x86_64 registers = framehop_registers_of_x86_64(it.registers[0], it.registers[1], it.registers[2]);
        framehop_frame_x86_64 frame = {unwinder, cache, place, it.address, registers, 0x5eed, 0x5eed};
        framehop_walk_x86_64 walk = {unwinder, cache, place, it.address, registers, 0x5eed, 0x5eed};
        if (is_walk) walk_x86_64(in, &it, walk);
        else step_x86_64(in, &it, frame);
    } else {
        /* (a link register that has no bit outside of the mask stays as it is where a step changes nothing) */
        framehop_registers_aarch64 registers = {it.registers[3], it.registers[0] & it.registers[3], it.registers[1], it.registers[2]};
        framehop_frame_aarch64 frame = {unwinder, cache, place, it.address, registers, 0x5eed, 0x5eed};
        framehop_walk_aarch64 walk = {unwinder, cache, place, it.address, registers, 0x5eed, 0x5eed};
        if (is_walk) walk_aarch64(in, &it, walk);
        else step_aarch64(in, &it, frame);
    }
}

static void call_by_chance(void) {
    static void (*const others[])(struct in_session *) = {
        add_unwinder, clone_unwinder, clone_unwinder, remove_unwinder, add_cache, remove_cache, stats, stats, stats, stats,
        load, load, load, load, load, load, load, load, load, unload, unload, unload, unload, last_end, last_end,
    };
    struct in_session *in = &sessions[below(SESSIONS)];
    if (!in->lives && once_in(2)) new_session(in);
    else if (in->lives && !in->unwinder_count && !once_in(8)) add_unwinder(in);
    else if (in->lives && !in->cache_count && !once_in(8)) add_cache(in);
    else if (once_in(in->lives ? 200 : 8)) (once_in(2) ? new_session : free_session)(in);
    else if (once_in(3)) others[below(sizeof others / sizeof others[0])](in);
    else step_or_walk(in);
}

int main(int argc, char **argv) {
    if (argc != 3) return 2;
    uint64_t wanted = strtoull(argv[1], NULL, 0);
    state = seed = strtoull(argv[2], NULL, 0);
    read_all();
    room_of_bytes = ending(8 * WORDS) + 8 * WORDS;
    room_of_words = ending(4 * WORDS * sizeof(framehop_word)) + 4 * WORDS * sizeof(framehop_word);
    room_of_frames = ending(PAGE) + PAGE;
    while (calls < wanted && wrong < 100) call_by_chance();
    for (size_t i = 0; i < SESSIONS; i++)
        if (sessions[i].lives) free_session(&sessions[i]);
    printf("calls %" PRIu64 "\n", calls);
    for (framehop_status i = 0; i < 64; i++)
        if (of_status[i]) printf("%s %" PRIu64 "\n", framehop_status_name(i), of_status[i]);
    return wrong ? 1 : 0;
}
