/* Files from numbers: the same number gives the same file on every machine. They are recordings of every kind, with damage,
 * and with lengths around each boundary of the format. */
#include "guarded.h"

#include <string.h>

static uint64_t state;

void seed_draws(uint64_t seed)
{
    state = seed * 0x9E3779B97F4A7C15u + 0x2545F4914F6CDD1Du;
}

static uint64_t next_draw(void)
{
    state ^= state << 13;
    state ^= state >> 7;
    state ^= state << 17;
    return state >> 11;
}

uint64_t draw(uint64_t below)
{
    return next_draw() % below;
}

static bool one_in(uint64_t n)
{
    return draw(n) == 0;
}

static void fill(uint8_t *bytes, size_t len)
{
    for (size_t i = 0; i < len; i++)
        bytes[i] = (uint8_t)next_draw();
}

/* What all blocks of a file have in common. */
struct manner {
    uint8_t type;
    uint64_t most; /* frames a block */
    uint64_t quiet; /* one block in so many is silent */
    uint64_t place; /* QP: where the frames of the block before end */
};

static struct manner draw_manner(void)
{
    static const uint8_t types[] = {0, 0, 0, 1, 3, 5, 6, 6, 6, 7, 7, 7, 8, 255};
    static const uint8_t mosts[] = {1, 9, 9, 12, 13, 30, 255};
    static const uint8_t quiets[] = {2, 5, 5, 50};
    struct manner m = {.type = types[draw(sizeof types)], .most = mosts[draw(sizeof mosts)], .quiet = quiets[draw(sizeof quiets)]};
    if (m.type == 7 && m.most > 9)
        m.most = 4 + draw(9);
    return m;
}

/* Byte 1: a place that continues the block before, the payload's beginning, or anything. */
static uint8_t draw_byte1(const struct manner *m, uint64_t block)
{
    uint64_t ahead = m->place - STREAM * block;
    if (m->place >= STREAM * block && ahead <= 504 && ahead % 2 == 0 && !one_in(4))
        return (uint8_t)(ahead / 2 + 3);
    if (one_in(2))
        return (uint8_t)draw(6);
    return (uint8_t)draw(256);
}

static void make_head(uint8_t *head, struct manner *m, uint64_t block)
{
    static const uint8_t flags[] = {0x0F, 0x0F, 0x0F, 0x8F};
    head[0] = one_in(10) ? (uint8_t)draw(256) : flags[draw(sizeof flags)];
    head[1] = draw_byte1(m, block);
    head[2] = one_in(m->quiet) ? 0 : (uint8_t)(one_in(8) ? m->most : draw(m->most + 1));
    head[3] = one_in(20) ? 0 : 0xFF;
    head[4] = one_in(12) ? (uint8_t)draw(9) : m->type;
    head[5] = one_in(20) ? 0 : 0xFF;
    m->place = STREAM * block + (head[1] < 3 ? 0 : 2u * head[1] - 6) + 56u * head[2];
}

/* Where the audio starts. A file with first byte 7 says so by good headers, and some others of them stand before. */
static size_t make_front(uint8_t *bytes)
{
    static const char magics[][5] = {"\2dss", "\3dss", "\1ds2", "\3ds2", "\1ds2", "\3ds2",
                                     "\7ds2", "\7ds2", "\3enc", "\6dss", "\2ds2", "\1dss"};
    static const size_t far[] = {0x10000 - BLOCK, 0x10000, 0x10000 + BLOCK};
    const char *magic = magics[one_in(12) ? 8 + draw(4) : draw(8)];
    size_t start = magic[0] == 2 ? 1024 : DS2_START;
    if (magic[0] == 7)
        start = one_in(30) ? far[draw(3)] : BLOCK * (1 + draw(9));
    fill(bytes, start);
    for (size_t at = BLOCK; magic[0] == 7 && at < start; at += BLOCK)
        memcpy(bytes + at, one_in(6) ? "\x0F\3\1\xFF\6\xFF" : "\0\0\0\0\0\0", HEAD);
    memcpy(bytes, magic, 4);
    return start;
}

static size_t cut_length(size_t start, size_t len)
{
    static const size_t lengths[] = {0x604, 0x605, 4, 3};
    if (one_in(15))
        return draw(len + 1);
    if (one_in(15))
        return start - 1 + draw(3);
    if (one_in(40)) {
        size_t cut = lengths[draw(4)];
        return cut < len ? cut : len;
    }
    return one_in(2) ? len : len + draw(BLOCK);
}

size_t make_file(uint8_t *bytes)
{
    struct manner m = draw_manner();
    size_t start = make_front(bytes);
    size_t blocks = one_in(20) ? 20 + draw(26) : draw(10);
    fill(bytes + start, (blocks + 1) * BLOCK);
    for (size_t i = 0; i < blocks; i++)
        make_head(bytes + start + BLOCK * i, &m, i);
    return cut_length(start, start + BLOCK * blocks);
}
