/* What crates/cases_unwinding does, as a plain program: the same input, the same work, the same output. */
#include <stdint.h>
#include <stdio.h>
#include <stdlib.h>
#include <string.h>

typedef struct {
    const uint8_t *next, *end;
    const char *fault;
} reader;

static uint64_t unsigned_within(reader *r, unsigned most, unsigned last_limit) {
    uint64_t value = 0;
    for (unsigned count = 0; count < most; count++) {
        if (r->next == r->end) {
            r->fault = "the bytes end";
            return 0;
        }
        uint8_t byte = *r->next++;
        if (count + 1 == most && byte > last_limit)
            break;
        value |= (uint64_t)(byte & 0x7f) << (7 * count);
        if (byte < 0x80)
            return value;
    }
    r->fault = "a bad number";
    return 0;
}

static uint64_t read_uleb128(reader *r) { return unsigned_within(r, 10, 1); }

static uint16_t read_uleb128_u16(reader *r) { return (uint16_t)unsigned_within(r, 3, 3); }

static int64_t read_sleb128(reader *r) {
    uint64_t value = 0;
    for (unsigned count = 0; count < 10; count++) {
        if (r->next == r->end) {
            r->fault = "the bytes end";
            return 0;
        }
        uint8_t byte = *r->next++;
        if (count == 9 && byte != 0 && byte != 0x7f)
            break;
        value |= (uint64_t)(byte & 0x7f) << (7 * count);
        if (byte < 0x80) {
            if (count < 9 && (byte & 0x40))
                value |= ~(uint64_t)0 << (7 * (count + 1));
            return (int64_t)value;
        }
    }
    r->fault = "a bad number";
    return 0;
}

typedef struct {
    uint16_t name, form;
    int64_t constant;
} attribute;

typedef struct {
    uint64_t code;
    uint16_t tag;
    int has_children;
    attribute *attributes;
    size_t count, room;
} declaration;

typedef struct {
    declaration *declarations;
    size_t count, room;
    uint64_t largest;
} table;

static void *grown(void *items, size_t *room, size_t each) {
    *room = *room ? 2 * *room : 4;
    items = realloc(items, *room * each);
    if (!items)
        exit(1);
    return items;
}

static void read_attributes(reader *r, declaration *d) {
    for (;;) {
        attribute a = {0};
        a.name = read_uleb128_u16(r);
        if (r->fault)
            return;
        a.form = read_uleb128_u16(r);
        if (r->fault)
            return;
        if (a.name == 0 || a.form == 0) {
            if (a.name != a.form)
                r->fault = "a zero";
            return;
        }
        if (a.form == 0x21) {
            a.constant = read_sleb128(r);
            if (r->fault)
                return;
        }
        if (d->count == d->room)
            d->attributes = grown(d->attributes, &d->room, sizeof a);
        d->attributes[d->count++] = a;
    }
}

/* Codes that count up from 1 are indexes, as in the tables of compilers. None is above the largest. */
static const declaration *get(const table *t, uint64_t code) {
    if (code > t->largest)
        return NULL;
    if (code - 1 < t->count && t->declarations[code - 1].code == code)
        return &t->declarations[code - 1];
    for (size_t i = 0; i < t->count; i++)
        if (t->declarations[i].code == code)
            return &t->declarations[i];
    return NULL;
}

static void insert(reader *r, table *t, declaration d) {
    if (get(t, d.code)) {
        r->fault = "a code twice";
        return;
    }
    if (t->count == t->room)
        t->declarations = grown(t->declarations, &t->room, sizeof d);
    t->declarations[t->count++] = d;
    if (d.code > t->largest)
        t->largest = d.code;
}

static void read_table(reader *r, table *t) {
    while (r->next != r->end) {
        declaration d = {0};
        d.code = read_uleb128(r);
        if (r->fault || d.code == 0)
            return;
        d.tag = read_uleb128_u16(r);
        if (r->fault)
            return;
        if (d.tag == 0 || r->next == r->end || *r->next > 1) {
            r->fault = "a bad declaration";
            return;
        }
        d.has_children = *r->next++;
        read_attributes(r, &d);
        if (r->fault)
            return;
        insert(r, t, d);
        if (r->fault)
            return;
    }
}

static void free_table(table *t) {
    for (size_t i = 0; i < t->count; i++)
        free(t->declarations[i].attributes);
    free(t->declarations);
}

static uint8_t *read_input(size_t *len) {
    size_t room = 0;
    uint8_t *bytes = NULL;
    *len = 0;
    for (;;) {
        if (*len == room) {
            room = room ? 2 * room : 1 << 16;
            bytes = realloc(bytes, room);
            if (!bytes)
                exit(1);
        }
        size_t n = fread(bytes + *len, 1, room - *len, stdin);
        if (n == 0)
            return bytes;
        *len += n;
    }
}

static int numbers(reader r) {
    uint64_t count = 0, sum = 0;
    while (r.next != r.end) {
        uint64_t number = read_uleb128(&r);
        if (r.fault)
            return 1;
        count++;
        sum += number;
    }
    printf("%llu numbers, sum %llu\n", (unsigned long long)count, (unsigned long long)sum);
    return 0;
}

static int read_u32(reader *r, uint32_t *value) {
    if (r->end - r->next < 4)
        return 0;
    memcpy(value, r->next, 4);
    r->next += 4;
    return 1;
}

static int tables(reader r) {
    uint32_t codes, count;
    if (!read_u32(&r, &codes) || !read_u32(&r, &count))
        return 1;
    uint32_t *offsets = NULL;
    size_t room = 0;
    for (size_t i = 0; i < count; i++) {
        if (i == room)
            offsets = grown(offsets, &room, sizeof *offsets);
        if (!read_u32(&r, &offsets[i]))
            return 1;
    }
    uint64_t declared = 0;
    for (size_t i = 0; i < count; i++) {
        if (offsets[i] > (size_t)(r.end - r.next))
            return 1;
        table t = {0};
        reader one = {r.next + offsets[i], r.end, NULL};
        read_table(&one, &t);
        if (one.fault)
            return 1;
        for (uint64_t code = 1; code <= codes; code++)
            declared += get(&t, code) != NULL;
        free_table(&t);
    }
    free(offsets);
    printf("%llu codes\n", (unsigned long long)declared);
    return 0;
}

int main(void) {
    size_t len;
    uint8_t *bytes = read_input(&len);
    if (len == 0)
        return 1;
    reader r = {bytes + 1, bytes + len, NULL};
    switch (bytes[0]) {
    case 'n':
        return numbers(r);
    case 't':
        return tables(r);
    default:
        printf("%zu bytes\n", len - 1);
        return 0;
    }
}
