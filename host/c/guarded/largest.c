/* The largest sizes: files of exactly the limit, which begin and end at inaccessible pages at once, and of one byte more,
 * whole and in a few huge pieces; the longest indexes; the longest list of packets, and one packet more. Most of a file is zero
 * pages that are never touched; only the last tests fill one. Rests on whole.c and pieces.c. */
#include "guarded.h"

#include <stdio.h>
#include <string.h>

/* As many packets as a file of the limit has; and where a DSS file's audio starts that has the most blocks, with how many these are. */
enum { MOST_PACKETS = 6470444, DSS_START = 1024, MOST_ENTRIES = (LIMIT - DSS_START) / BLOCK };

static struct area big;

/* Blocks that announce something, counted from the front, or from the end where negative. Their payloads are not zeros. */
static const struct {
    int64_t block;
    uint8_t head[HEAD];
} placed[] = {
    {0, {0x8F, 3, 9, 0xFF, 0, 0xFF}}, {1, {0x0F, 5, 3, 0xFF, 0, 0xFF}}, {3, {0x8F, 200, 12, 0xFF, 0, 0xFF}},
    {262144, {0x0F, 3, 5, 0xFF, 0, 0xFF}}, {-2, {0x0F, 250, 2, 0xFF, 0, 0xFF}}, {-1, {0x0F, 60, 4, 0xFF, 0, 0xFF}},
};

/* Where such a block stands in a file of the limit's length that begins at `at`. */
static uint8_t *placed_at(uint8_t *at, const char *magic, size_t i)
{
    size_t start = magic[0] == 2 ? 1024 : DS2_START;
    int64_t blocks = (LIMIT - (int64_t)start) / BLOCK;
    return at + start + BLOCK * (size_t)(placed[i].block < 0 ? blocks + placed[i].block : placed[i].block);
}

/* Writes the magic and the announcing blocks. */
static void lay(uint8_t *at, const char *magic, uint8_t type, uint8_t last_count)
{
    area_allow(&big, 0, big.size, true);
    memcpy(at, magic, 4);
    for (size_t i = 0; i < sizeof placed / sizeof *placed; i++) {
        uint8_t *to = placed_at(at, magic, i);
        for (size_t k = 0; k < BLOCK; k++)
            to[k] = (uint8_t)(k * 13 + 50 * i + type);
        memcpy(to, placed[i].head, HEAD);
        to[4] = type;
        if (placed[i].block == -1)
            to[2] = last_count;
    }
}

/* Zeros again, in their place. */
static void unlay(uint8_t *at, const char *magic)
{
    area_allow(&big, 0, big.size, true);
    for (size_t i = 0; i < sizeof placed / sizeof *placed; i++)
        memset(placed_at(at, magic, i), 0, BLOCK);
    memset(at, 0, 4);
}

/* Exactly the limit. The area has a page more, which is then inaccessible. */
static void whole_at_limit(const char *magic, uint8_t type, uint8_t last_count)
{
    lay(big.view, magic, type, last_count);
    area_allow(&big, 0, LIMIT, false);
    whole_calls((struct slice){big.view, LIMIT});
    unlay(big.view, magic);
}

/* One byte more, at either edge: every whole call refuses, and the detections answer. */
static void whole_over_limit(const char *magic, uint8_t type)
{
    for (int i = 0; i < 2; i++) {
        side = i == 0 ? AT_END : AT_START;
        uint8_t *at = big.view + (side == AT_END ? PAGE - 1 : 0);
        lay(at, magic, type, 4);
        area_allow(&big, 0, big.size, false);
        whole_calls((struct slice){at, (size_t)LIMIT + 1});
        unlay(at, magic);
    }
}

/* A piece of the file: all that is not lent is inaccessible during the call. The model looks at the file before. */
static void give(struct modelled *m, klov_reader *r, size_t from, size_t len, bool one_short)
{
    area_allow(&big, 0, big.size, false);
    uint64_t needed = model_needed(m, len);
    uint64_t room = one_short ? needed - 1 : needed;
    struct answer want = model_piece(m, len, room, want_out, want_counts);
    area_allow(&big, from, (from + len + PAGE - 1) / PAGE * PAGE, false);
    struct question q = {.export = PIECE, .in = {big.view + from, len}, .reader = r, .b_len = PACKET * room, .c_len = room};
    expect(&q, &want);
    area_allow(&big, 0, big.size, false);
}

/* All of the file in pieces; then a byte more is refused, an empty piece is not, and the reader can be ended. */
static void pieces_to_limit(uint64_t kind, const size_t *cuts, size_t n)
{
    klov_reader *r = expect_open(kind);
    struct modelled m = model_open(kind, big.view);
    give(&m, r, 0, (size_t)LIMIT + 1, false);
    for (size_t i = 0; i + 1 < n; i++) {
        if (i == 1)
            give(&m, r, 0, LIMIT, false);
        if (i == 1 && model_needed(&m, cuts[2] - cuts[1]) > 0)
            give(&m, r, cuts[1], cuts[2] - cuts[1], true);
        give(&m, r, cuts[i], cuts[i + 1] - cuts[i], false);
        check_number("bytes joined", cuts[i + 1], m.joined.len);
    }
    give(&m, r, 0, 1, false);
    give(&m, r, PAGE, 0, false);
    expect_end(&m, r, KLOV_STRICT, 0, 0);
    expect_end(&m, r, KLOV_LENIENT, 100 * PACKET, 7);
    expect_end(&m, r, KLOV_LENIENT, 1000 * PACKET, 1000);
    expect_end(&m, r, KLOV_STRICT, 0, 0);
}

/* Every block announces, and on the whole a little more than there is, so that the reader never has much unread. */
static void fill_all(void)
{
    uint64_t word = 88172645463325252u;
    area_allow(&big, 0, big.size, true);
    for (size_t i = 0; i < LIMIT; i += sizeof word) {
        word ^= word << 13;
        word ^= word >> 7;
        word ^= word << 17;
        memcpy(big.view + i, &word, sizeof word);
    }
    for (size_t at = DS2_START; at < LIMIT; at += BLOCK)
        memcpy(big.view + at, (uint8_t[HEAD]){0x8F, 3, at / BLOCK % 2 == 0 ? 12 : 13, 0xFF, 0, 0xFF}, HEAD);
    memcpy(big.view, "\3ds2", 4);
    area_allow(&big, 0, big.size, false);
}

/* Of the filled file's packets the first, some on the way, those around the stream's end, and the last. */
static bool is_asked(uint64_t n, uint64_t announced)
{
    return n < 3 || n % 1000003 == 0 || (n + 2 >= MOST_PACKETS && n < MOST_PACKETS + 2) || n + 2 >= announced;
}

/* These at once, beside one walk over all of them. */
static void packets_on_the_way(void)
{
    struct file f = {big.view, LIMIT};
    struct shape s = model_shape(f, false, true);
    struct walk w = {0};
    for (uint64_t n = 0; n < s.announced; n++) {
        uint8_t out[PACKET], count;
        walk_packets(&w, f, &s, 1, out, &count);
        if (!is_asked(n, s.announced))
            continue;
        struct question q = {.export = AT_ONCE, .in = {big.view, LIMIT}, .x = n, .b_len = PACKET, .c_len = 1};
        struct answer want = answered(1, 0);
        want.b = (struct slice){out, PACKET};
        want.c = (struct slice){&count, 1};
        expect(&q, &want);
    }
}

/* A DSS file of the limit's length, over what a test before has left there: every block announces so many packets, with this flag but for the
 * first block's. */
static struct file announce_all(uint8_t first_flag, uint8_t flag, uint8_t count)
{
    area_allow(&big, 0, big.size, true);
    memcpy(big.view, "\2dss", 4);
    for (size_t at = DSS_START; at < LIMIT; at += BLOCK)
        memcpy(big.view + at, (uint8_t[HEAD]){at == DSS_START ? first_flag : flag, 3, count, 0xFF, 0, 0xFF}, HEAD);
    area_allow(&big, 0, LIMIT, false);
    return (struct file){big.view, LIMIT};
}

/* So many bytes of the index, with the length that says so, and with another byte at a place, if it has that. */
static void longest_read(const struct area *beside, const struct indexed *its, size_t len, size_t changed)
{
    struct slice index = lend_copy(beside, its->index.at, len);
    uint8_t *bytes = beside->fill + (index.at - beside->view);
    put_word(bytes, len - LENGTH);
    if (changed < len)
        bytes[changed] ^= 1;
    struct answer want = model_read(its, (struct file){index.at, len});
    expect(&(struct question){.export = READ_INDEX, .in = {big.view, LIMIT}, .also = index}, &want);
}

/* One packet by the index, and before that its entry. */
static void longest_ask(const struct indexed *its, struct slice index, uint64_t n, uint8_t *out, uint8_t *count)
{
    struct question q = {.export = FIND_ENTRY, .in = {big.view, LIMIT}, .also = index, .x = n, .b_len = PACKET, .c_len = 1};
    struct answer want = model_find((struct file){big.view, LIMIT}, its, (struct file){index.at, index.len}, n);
    expect(&q, &want);
    q.export = BY_INDEX;
    want = n < its->s.announced ? answered(1, 0) : refused(18, its->s.announced);
    if (n < its->s.announced) {
        want.b = (struct slice){out, PACKET};
        want.c = (struct slice){count, 1};
    }
    expect(&q, &want);
}

/* Every block announces the most packets. Each begins unswapped, so that no packet needs an earlier block. */
static void longest_numbers(const struct area *beside)
{
    static const uint64_t blocks[] = {0, 262144, MOST_ENTRIES - 1}, packets[] = {0, 1, 254};
    struct file f = announce_all(0x0F, 0x0F, 255);
    struct indexed its = model_index(f, want_index);
    size_t len = its.index.len;
    check_number("entries", MOST_ENTRIES, its.entries);
    for (size_t room = len - 1; room <= len + 1; room++) {
        struct answer want = model_build(&its, room);
        expect(&(struct question){.export = BUILD_INDEX, .in = {big.view, LIMIT}, .b_len = room}, &want);
    }
    const size_t lengths[] = {len, len - 1, len - ENTRY, len + 1, len + ENTRY}, changed[] = {FRONT, len / 2, len - 1};
    for (size_t i = 0; i < sizeof lengths / sizeof *lengths; i++)
        longest_read(beside, &its, lengths[i], SIZE_MAX);
    for (size_t i = 0; i < sizeof changed / sizeof *changed; i++)
        longest_read(beside, &its, len, changed[i]);
    struct slice index = lend_copy(beside, its.index.at, len);
    for (size_t i = 0; i < 3; i++) {
        struct walk w = {.block = blocks[i]};
        walk_packets(&w, f, &its.s, 255, want_out, want_counts);
        for (size_t k = 0; k < 3; k++)
            longest_ask(&its, index, 255 * blocks[i] + packets[k], want_out + PACKET * packets[k], want_counts + packets[k]);
    }
    longest_ask(&its, index, 255ull * MOST_ENTRIES, NULL, NULL);
    longest_ask(&its, index, (1ull << 32) + 1, NULL, NULL);
}

/* Every block but perhaps the first announces one packet that is swapped: what is carried to the last comes from the first, or is ours. */
static void longest_carry(const struct area *beside, uint8_t first_flag)
{
    struct file f = announce_all(first_flag, 0x8F, 1);
    struct indexed its = model_index(f, want_index);
    struct slice index = lend_copy(beside, its.index.at, its.index.len);
    struct walk w = {0};
    for (uint64_t n = 0; n < MOST_ENTRIES; n++) {
        uint8_t out[PACKET], count;
        walk_packets(&w, f, &its.s, 1, out, &count);
        if (n < 2 || n == MOST_ENTRIES / 2 || n == MOST_ENTRIES - 1)
            longest_ask(&its, index, n, out, &count);
    }
}

/* An index that has 2^32 bytes more than its length says. */
static void longest_lent(void)
{
    struct area beside = area_reserved((1ull << 32) + PAGE);
    about("longest DSS file, with an index of so many pages", beside.size / PAGE);
    area_allow(&beside, 0, PAGE, true);
    put_word(beside.view, PAGE - LENGTH);
    beside.view[LENGTH] = 1;
    area_allow(&beside, 0, beside.size, false);
    struct question q = {.export = READ_INDEX, .in = {big.view, LIMIT}, .also = {beside.view, beside.size}};
    struct answer want = refused(19, 0);
    expect(&q, &want);
    area_allow(&beside, 0, 0, false);
}

static void longest_indexes(void)
{
    struct area beside = area_to_read(FRONT + ENTRY * (size_t)(MOST_ENTRIES + 1));
    about("longest DSS file, with its index,", 255);
    side = AT_END;
    longest_numbers(&beside);
    about("longest DSS file of swapped packets, with its index,", 0x0F);
    side = AT_START;
    longest_carry(&beside, 0x0F);
    about("longest DSS file of swapped packets, with its index,", 0x8F);
    longest_carry(&beside, 0x8F);
    longest_lent();
}

/* Packets that end at an inaccessible page: zeros, but for some at the front, in the middle and at the end. */
static struct slice many_packets(const struct area *many, uint64_t n)
{
    struct slice packets = {many->view + many->size - PACKET * n, PACKET * n};
    const uint64_t from[] = {0, n / 2, n - 40};
    area_allow(many, 0, many->size, true);
    for (size_t i = 0; i < 3; i++)
        for (size_t k = PACKET * from[i]; k < PACKET * (from[i] + 40); k++)
            packets.at[k] = k % PACKET == 40 ? 0 : (uint8_t)draw(256);
    area_allow(many, 0, many->size, false);
    return packets;
}

/* The longest file, over what a test before has left there; and one packet more, for which no room is enough. */
static void longest_list(void)
{
    static uint8_t before[2][PAGE];
    uint8_t header[DS2_START] = "\3ds2 and zeros", block[BLOCK];
    struct area many = area_reserved(PACKET * (size_t)(MOST_PACKETS + 1));
    struct question q = {.export = WRITE, .in = lend_copy(&header_area, header, DS2_START), .b_len = PAGE};
    about("packets written, too many,", MOST_PACKETS + 1);
    q.also = many_packets(&many, MOST_PACKETS + 1);
    struct answer want = refused(17, LIMIT);
    expect(&q, &want);
    about("packets written, the most,", MOST_PACKETS);
    struct file packets = {many_packets(&many, MOST_PACKETS).at, PACKET * (size_t)MOST_PACKETS};
    q.also = (struct slice){(uint8_t *)packets.at, packets.len};
    area_allow(&big, 0, LIMIT, true);
    memcpy(before[0], big.view, PAGE);
    memcpy(before[1], big.view + LIMIT - PAGE, PAGE);
    q.placed = (struct slice){big.view, LIMIT - 1};
    want = refused(8, LIMIT);
    expect(&q, &want);
    check_number("what was there at the front", 0, memcmp(before[0], big.view, PAGE) != 0);
    check_number("what was there at the end", 0, memcmp(before[1], big.view + LIMIT - PAGE, PAGE) != 0);
    q.placed.len = LIMIT;
    want = answered(LIMIT, 0);
    expect(&q, &want);
    check_number("header", 0, memcmp(big.view, header, DS2_START) != 0);
    bool same = true;
    for (uint64_t i = 0; same && i < (LIMIT - DS2_START) / BLOCK; i++) {
        model_block(packets, i, block);
        same = memcmp(big.view + DS2_START + BLOCK * i, block, BLOCK) == 0;
        check_number("whether a block is the model's", 1, same);
    }
    area_allow(&big, 0, LIMIT, false);
    want = (struct answer){.numbers = {0, 0, KLOV_DS2_SP, DS2_START, (LIMIT - DS2_START) / BLOCK, MOST_PACKETS, MOST_PACKETS, 0,
                                       41ull * MOST_PACKETS}};
    expect(&(struct question){.export = TALLY, .in = {big.view, LIMIT}}, &want);
}

void largest(void)
{
    static const size_t sparse[] = {0, 5 * PAGE, 40000 * PAGE, 40001 * PAGE, LIMIT}, single[] = {0, LIMIT};
    static const size_t dense[] = {0, 16000 * PAGE, 33000 * PAGE, 49000 * PAGE, 49001 * PAGE, LIMIT};
    big = area_reserved((size_t)LIMIT + PAGE);
    seed_draws(1);
    about("largest DSS file", 2);
    whole_at_limit("\2dss", 0, 4);
    whole_over_limit("\2dss", 0);
    lay(big.view, "\3dss", 0, 30);
    pieces_to_limit(3, sparse, 5);
    pieces_to_limit(3, single, 2);
    unlay(big.view, "\3dss");
    static const uint8_t types[] = {0, 6, 7};
    for (size_t i = 0; i < sizeof types; i++) {
        about("largest DS2 file of type", types[i]);
        whole_at_limit(types[i] == 6 ? "\7ds2" : "\1ds2", types[i], 4);
        whole_over_limit("\3ds2", types[i]);
    }
    about("largest DS2 file of type 7, refused,", 7);
    whole_at_limit("\1ds2", 7, 200);
    about("largest DS2 file in pieces", 3);
    fill_all();
    pieces_to_limit(0, dense, 6);
    struct file f = {big.view, LIMIT};
    struct answer want = model_tally(f, &lists);
    area_allow(&big, 0, LIMIT, false);
    expect(&(struct question){.export = TALLY, .in = {big.view, LIMIT}}, &want);
    packets_on_the_way();
    longest_indexes();
    longest_list();
}
