/* The exports of an index: it is built in rooms around its size, and is given to the calls that take one, as it is, cut or lengthened at
 * every byte, with every bit changed, with entries out of place, and as another recording's; with packets of every number that matters. Each
 * slice is lent by itself. Rests on the model. */
#include "guarded.h"

#include <string.h>

enum { MOST_BLOCKS = 256, MOST_INDEX = FRONT + ENTRY * (MOST_BLOCKS + 2) };

/* A file, with what the model makes of it. */
struct recording {
    struct slice file;
    struct indexed its;
    struct answer whole;
};

/* What is given for an index; and the index of the recording before. */
static uint8_t given[MOST_INDEX], other[MOST_INDEX] = {0, 0, 0, 1, 1};
static size_t other_len = FRONT;

static struct file seen_as(struct slice s)
{
    return (struct file){s.at, s.len};
}

static struct recording recorded(struct slice file)
{
    struct recording r = {.file = file, .its = model_index(seen_as(file), want_index)};
    uint64_t n = r.its.s.announced;
    r.whole = model_sp(seen_as(file), true, PACKET * n, n, want_out, want_counts);
    return r;
}

static void build(const struct recording *r, size_t room)
{
    struct answer want = model_build(&r->its, room);
    expect(&(struct question){.export = BUILD_INDEX, .in = r->file, .b_len = room}, &want);
}

static void find(const struct recording *r, struct slice index, uint64_t packet)
{
    struct answer want = model_find(seen_as(r->file), &r->its, seen_as(index), packet);
    expect(&(struct question){.export = FIND_ENTRY, .in = r->file, .also = index, .x = packet}, &want);
}

/* In one of the rooms for one packet, of which the first two are enough. */
static void hand_out(const struct recording *r, struct slice index, uint64_t packet, uint64_t which)
{
    static const size_t rooms[][2] = {{PACKET, 1}, {3 * PACKET + 41, 5}, {PACKET - 1, 1}, {PACKET, 0}, {0, 0}};
    const size_t *room = rooms[which];
    struct question q = {.export = BY_INDEX, .in = r->file, .also = index, .x = packet, .b_len = room[0], .c_len = room[1]};
    struct answer want = model_by_index(&r->its, seen_as(index), &r->whole, packet, room[0], room[1]);
    expect(&q, &want);
}

/* So many bytes of `given` as an index, for the three calls that take one. */
static void give(const struct recording *r, size_t len)
{
    uint64_t n = r->its.s.announced;
    const uint64_t packets[] = {0, n - 1, n, draw(n + 1), SIZE_MAX};
    struct slice index = lend_copy(&piece_area, given, len);
    struct answer want = model_read(&r->its, seen_as(index));
    expect(&(struct question){.export = READ_INDEX, .in = r->file, .also = index}, &want);
    find(r, index, packets[draw(5)]);
    hand_out(r, index, packets[draw(5)], draw(5));
}

/* The recording's own index, with so many bytes behind it that are any. */
static size_t put_own(const struct recording *r, size_t more)
{
    memcpy(given, r->its.index.at, r->its.index.len);
    for (size_t i = 0; i < more; i++)
        given[r->its.index.len + i] = (uint8_t)draw(256);
    return r->its.index.len;
}

/* Cut to so many bytes, or lengthened; as it is then, and with the length that it has. */
static void give_cut(const struct recording *r, size_t len)
{
    put_own(r, len > r->its.index.len ? len - r->its.index.len : 0);
    give(r, len);
    if (len >= LENGTH) {
        put_word(given, len - LENGTH);
        give(r, len);
    }
}

static void give_changed(const struct recording *r, size_t bit)
{
    size_t len = put_own(r, 0);
    given[bit / 8] ^= (uint8_t)(1u << bit % 8);
    give(r, len);
}

/* Another version: also with something wrong after it, which is not told, and with something wrong before it, which is. */
static void give_version(const struct recording *r, uint8_t version)
{
    size_t len = put_own(r, ENTRY);
    given[LENGTH] = version;
    give(r, len);
    give(r, len - 1);
    put_word(given, len + ENTRY - LENGTH);
    give(r, len + ENTRY);
}

/* Lengths that are not that of what follows: one off, its own bytes counted too, none, the other end first. */
static void give_lengths(const struct recording *r)
{
    size_t len = put_own(r, 0);
    const uint64_t lengths[] = {len - LENGTH - 1, len - LENGTH + 1, len, 0, (len - LENGTH) << 24, UINT32_MAX, 1u << 31 | (len - LENGTH)};
    for (size_t i = 0; i < sizeof lengths / sizeof *lengths; i++) {
        put_word(given, lengths[i]);
        give(r, len);
    }
}

/* As many entries as `given` has now, with the length that says so. */
static void give_entries(const struct recording *r, uint64_t entries)
{
    put_word(given, 1 + ENTRY * entries);
    give(r, FRONT + ENTRY * entries);
}

/* Entries that are each the recording's, but one is doubled, left out, or after its successor; and one too many, which would be right if another
 * block announced something. */
static void give_misplaced(const struct recording *r)
{
    uint64_t n = r->its.entries;
    const struct shape *s = &r->its.s;
    uint8_t *end = given + put_own(r, 0);
    put_word(end, s->blocks);
    put_word(end + WORD, s->announced);
    put_word(end + 2 * WORD, STREAM * s->blocks);
    give_entries(r, n + 1);
    if (n == 0)
        return;
    uint64_t k = draw(n);
    uint8_t *at = given + FRONT + ENTRY * k;
    memmove(at + ENTRY, at, ENTRY * (n - k));
    give_entries(r, n + 1);
    put_own(r, 0);
    memmove(at, at + ENTRY, ENTRY * (n - k - 1));
    give_entries(r, n - 1);
    put_own(r, 0);
    if (k > 0) {
        memcpy(at, r->its.index.at + FRONT + ENTRY * (k - 1), ENTRY);
        memcpy(at - ENTRY, r->its.index.at + FRONT + ENTRY * k, ENTRY);
    }
    give_entries(r, n);
}

/* The index of the recording before, which may be the same; and bytes that are none. */
static void give_other(const struct recording *r)
{
    memcpy(given, other, other_len);
    give(r, other_len);
    size_t len = FRONT + draw(40);
    for (size_t i = 0; i < len; i++)
        given[i] = (uint8_t)draw(256);
    put_word(given, len - LENGTH);
    given[LENGTH] = (uint8_t)draw(3);
    give(r, len);
}

static void builds(const struct recording *r)
{
    size_t len = r->its.index.len;
    const size_t rooms[] = {0, 1, LENGTH, FRONT, len > ENTRY ? len - ENTRY : 0, len - 1, len, len + 1, len + ENTRY, len + 300};
    for (size_t i = 0; i < sizeof rooms / sizeof *rooms; i++)
        build(r, rooms[i]);
}

/* Its own index, and packets of these numbers. */
static void by_number(const struct recording *r, const uint64_t *numbers, size_t n)
{
    struct slice index = lend_copy(&piece_area, r->its.index.at, r->its.index.len);
    for (size_t i = 0; i < n; i++) {
        find(r, index, numbers[i]);
        hand_out(r, index, numbers[i], 0);
        hand_out(r, index, numbers[i], 1 + draw(4));
    }
}

/* The first packet of each block and the last, the first and the last of all, and numbers that there are not. */
static void by_numbers(const struct recording *r)
{
    uint64_t n = r->its.s.announced;
    const uint64_t numbers[] = {0, n / 2, n - 1, n, n + 1, UINT32_MAX, 1ull << 32, (1ull << 32) + n / 2, SIZE_MAX / 2 + 1, SIZE_MAX};
    by_number(r, numbers, sizeof numbers / sizeof *numbers);
    for (uint64_t i = 0; i < r->its.entries; i++) {
        const uint8_t *first = r->its.index.at + FRONT + ENTRY * i + WORD;
        uint64_t behind = i + 1 < r->its.entries ? word_at(first + ENTRY) : n;
        by_number(r, (uint64_t[]){word_at(first), behind - 1}, 2);
    }
}

/* Of a file that is refused as it is, whatever index it is given, there is little to ask. */
void index_calls(struct slice file)
{
    struct recording r = recorded(file);
    size_t len = r.its.index.len;
    if (r.its.s.refusal != 0) {
        build(&r, draw(2) * FRONT);
        give_cut(&r, draw(FRONT + 1));
        give_version(&r, (uint8_t)draw(3));
        give_other(&r);
        return;
    }
    builds(&r);
    by_numbers(&r);
    give_lengths(&r);
    give_misplaced(&r);
    give_version(&r, (uint8_t)draw(256));
    give_other(&r);
    for (int i = 0; i < 3; i++)
        give_cut(&r, draw(len + 2 * ENTRY));
    for (int i = 0; i < 6; i++)
        give_changed(&r, draw(8 * len));
    memcpy(other, r.its.index.at, len);
    other_len = len;
}

/* Recordings of few blocks, by byte 0, byte 1 and count of each. */
static const struct {
    const char *magic;
    uint8_t blocks[6][3];
} few[] = {
    {"\2dss", {{0}}},
    {"\3dss", {{0x8F, 3, 0}, {0x0F, 9, 0}}},
    {"\2dss", {{0x0F, 3, 12}}},
    {"\2dss", {{0x8F, 255, 255}}},
    {"\2dss", {{0x0F, 3, 12}, {0x0F, 7, 0}, {0x8F, 10, 5}}},
    {"\3dss", {{0x8F, 3, 1}, {0x8F, 3, 1}, {0x0F, 3, 1}, {0x8F, 3, 2}}},
    {"\2dss", {{0x0F, 0, 1}, {0x8F, 2, 1}, {0x0F, 255, 1}, {0x8F, 254, 1}}},
    {"\3dss", {{0x0F, 3, 0}, {0x0F, 3, 0}, {0x8F, 100, 1}, {0x8F, 0, 1}, {0x0F, 0, 0}}},
    {"\2dss", {{0x0F, 9, 3}, {0x8F, 30, 1}, {0x0F, 7, 0}, {0x8F, 3, 1}, {0x8F, 3, 2}}},
    {"\2dss", {{0x0F, 3, 25}, {0x8F, 3, 3}, {0x0F, 1, 0}, {0x8F, 24, 13}, {0x0F, 4, 255}, {0x8F, 3, 1}}},
};
static uint8_t bytes[4 * PAGE];

/* Any bytes, but for the heads and the magic. The recording's length comes back. */
static size_t put_few(size_t which)
{
    size_t at = BLOCK * (size_t)few[which].magic[0];
    for (size_t i = 0; i < sizeof bytes; i++)
        bytes[i] = (uint8_t)draw(256);
    memcpy(bytes, few[which].magic, 4);
    for (size_t i = 0; i < 6 && few[which].blocks[i][0] != 0; i++, at += BLOCK)
        memcpy(bytes + at, few[which].blocks[i], 3);
    return at;
}

/* Every cut, with every length up to two entries more, every bit, and every version. */
static void every_wrong_one(struct slice file)
{
    struct recording r = recorded(file);
    for (size_t len = 0; len <= r.its.index.len + 2 * ENTRY; len++)
        give_cut(&r, len);
    for (size_t bit = 0; bit < 8 * r.its.index.len; bit++)
        give_changed(&r, bit);
    for (unsigned version = 0; version < 256; version++)
        give_version(&r, (uint8_t)version);
    for (int i = 0; i < 12; i++)
        give_misplaced(&r);
}

/* An index whose bytes are written out, which hold the model too: block 0 announces 12 from place 0 on, block 1 is silent, block 2 announces
 * 5 from place 2 * 506 + 2 * 10 + 2 - 6 on. And the index of a recording that announces nothing. */
static void written_out(void)
{
    static uint8_t empty[] = {0, 0, 0, 1, 1};
    static uint8_t index[] = {0, 0, 0, 25, 1, 0, 0, 0, 0, 0, 0, 0, 0, 0, 0, 0, 0, 0, 0, 0, 2, 0, 0, 0, 12, 0, 0, 4, 4};
    static const struct {
        uint64_t packet;
        struct answer entry;
    } found[] = {
        {0, {.numbers = {0, 0, 0, 0, 0}}},      {11, {.numbers = {0, 0, 0, 0, 0}}}, {12, {.numbers = {0, 0, 2, 12, 1028}}},
        {16, {.numbers = {0, 0, 2, 12, 1028}}}, {17, {.numbers = {18, 17}}},
    };
    about("index written out", 0);
    struct question q = {.export = BUILD_INDEX, .in = lend_copy(&file_area, bytes, put_few(1)), .b_len = 90};
    struct answer want = answered(sizeof empty, 0);
    want.b = (struct slice){empty, sizeof empty};
    expect(&q, &want);
    about("index written out", 1);
    q.in = lend_copy(&file_area, bytes, put_few(4));
    want = answered(sizeof index, 2);
    want.b = (struct slice){index, sizeof index};
    expect(&q, &want);
    q = (struct question){.export = READ_INDEX, .in = q.in, .also = lend_copy(&piece_area, index, sizeof index)};
    want = answered(2, 17);
    expect(&q, &want);
    q.export = FIND_ENTRY;
    for (size_t i = 0; i < sizeof found / sizeof *found; i++) {
        q.x = found[i].packet;
        expect(&q, &found[i].entry);
    }
}

/* The few recordings with their bytes to the last, with some of a block more, one byte short, and under another's magic. */
void indexes(void)
{
    static const char magics[][5] = {"\1ds2", "\3ds2", "\7ds2", "\6dss", "\1dss", "\3enc"};
    seed_draws(43);
    written_out();
    for (size_t i = 0; i < sizeof few / sizeof *few; i++) {
        size_t len = put_few(i);
        const size_t lengths[] = {len - 1, len, len + 1, len + BLOCK - 1, 0, 3, 4, BLOCK};
        about("recording with every index", i);
        every_wrong_one(lend_copy(&file_area, bytes, len));
        for (size_t k = 0; k < sizeof lengths / sizeof *lengths; k++)
            index_calls(lend_copy(&file_area, bytes, lengths[k]));
        about("file of another magic with an index", i);
        for (size_t m = 0; m < sizeof magics / sizeof *magics; m++) {
            memcpy(bytes, magics[m], 4);
            index_calls(lend_copy(&file_area, bytes, len));
        }
    }
}
