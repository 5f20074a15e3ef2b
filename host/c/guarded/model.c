/* A model of the format, written from its description (docs/FORMAT.md): detection, what every whole call asks first, a block's
 * payload, the bytes of a frame, a file of packets. It is meant to be read beside the description, not to be fast. */
#include "guarded.h"

#include <string.h>

bool model_good(const uint8_t *h, uint64_t len)
{
    return len >= HEAD && h[0] == 0x0F && h[3] == 0xFF && h[5] == 0xFF && h[2] > 0 && (h[4] <= 3 || h[4] == 6 || h[4] == 7);
}

static unsigned score_at(struct file f, uint64_t place)
{
    unsigned score = 0;
    while (score < 16 && place + HEAD <= f.len && model_good(f.at + place, HEAD)) {
        score++;
        place += BLOCK;
    }
    return score;
}

uint64_t model_start(struct file f)
{
    if (f.len == 0 || f.at[0] != 7)
        return DS2_START;
    uint64_t last = f.len < HEAD ? 0 : f.len - HEAD;
    if (last > 0x10000)
        last = 0x10000;
    uint64_t best = 0x1000;
    unsigned best_score = 0;
    for (uint64_t place = BLOCK; place <= last; place += BLOCK) {
        unsigned score = score_at(f, place);
        if (score >= 4)
            return place;
        if (score > best_score) {
            best = place;
            best_score = score;
        }
    }
    return best;
}

static uint64_t whole_blocks(struct file f, uint64_t start)
{
    return f.len < start ? 0 : (f.len - start) / BLOCK;
}

uint8_t model_type(struct file f, uint64_t start)
{
    uint64_t blocks = whole_blocks(f, start);
    for (uint64_t i = 0; i < blocks; i++)
        if (f.at[start + BLOCK * i + 2] > 0)
            return f.at[start + BLOCK * i + 4];
    return 0;
}

static bool begins(struct file f, uint8_t first, const char *rest)
{
    return f.len >= 4 && f.at[0] == first && memcmp(f.at + 1, rest, 3) == 0;
}

static bool is_ds2(struct file f)
{
    return begins(f, 1, "ds2") || begins(f, 3, "ds2") || begins(f, 7, "ds2");
}

/* The numbers of the header: 0 none, 1 DssSp, 2 Ds2Sp, 3 Ds2Qp, 4 Ds2Qp7, 5 GrundigSp. */
static uint8_t format_of(uint8_t type)
{
    return type == 7 ? 4 : type == 6 ? 3 : 2;
}

uint8_t model_format(struct file f)
{
    if (begins(f, 6, "dss"))
        return 5;
    if (begins(f, 2, "dss") || begins(f, 3, "dss"))
        return 1;
    if (!is_ds2(f) || f.len <= 0x604 || f.len <= model_start(f) + 4)
        return 0;
    return format_of(model_type(f, model_start(f)));
}

/* Refusals 1, 2 and 3, in that order; then what a recording is. */
struct shape model_shape(struct file f, bool dss, bool ds2)
{
    struct shape s = {.dss = begins(f, 2, "dss") || begins(f, 3, "dss")};
    if (!(dss && s.dss) && !(ds2 && is_ds2(f)))
        return (struct shape){.refusal = 1};
    if (f.len > LIMIT)
        return (struct shape){.refusal = 2, .beside = LIMIT};
    s.start = s.dss ? BLOCK * (uint64_t)f.at[0] : model_start(f);
    if (f.len < s.start)
        return (struct shape){.refusal = 3, .beside = s.start};
    s.blocks = whole_blocks(f, s.start);
    s.type = s.dss ? 0 : model_type(f, s.start);
    for (uint64_t i = 0; i < s.blocks; i++)
        s.announced += block_head(f, &s, i)[2];
    return s;
}

const uint8_t *block_head(struct file f, const struct shape *s, uint64_t block)
{
    return f.at + s->start + BLOCK * block;
}

/* Past the end of the payload stream bytes read as 0. */
uint8_t stream_byte(struct file f, const struct shape *s, uint64_t place)
{
    uint64_t block = place / STREAM;
    return block < s->blocks ? block_head(f, s, block)[HEAD + place % STREAM] : 0;
}

struct answer refused(uint64_t refusal, uint64_t beside)
{
    return (struct answer){.numbers = {refusal, beside}};
}

struct answer answered(uint64_t first, uint64_t second)
{
    return (struct answer){.numbers = {0, 0, first, second}};
}

struct answer model_payload(struct file f, uint64_t block)
{
    struct shape s = model_shape(f, true, true);
    if (s.refusal != 0)
        return refused(s.refusal, s.beside);
    if (block >= s.blocks)
        return refused(12, 0);
    return answered(s.start + BLOCK * block + HEAD, 0);
}

/* A frame is missing where the segment has ended, or where its place has no number. */
struct answer model_frame(uint64_t start, uint64_t length, uint64_t k)
{
    if (k > UINT64_MAX / FRAME || k * FRAME >= length || start > UINT64_MAX - k * FRAME)
        return answered(0, 0);
    uint64_t rest = length - k * FRAME;
    return answered(start + k * FRAME, rest < FRAME ? rest : FRAME);
}

/* `bytes` takes what the scratch begins with afterwards: the frame, where it crosses a block. */
struct answer model_fetch(struct file f, uint64_t place, uint64_t size, uint64_t scratch, uint8_t *bytes)
{
    struct shape s = model_shape(f, false, true);
    if (s.refusal != 0)
        return refused(s.refusal, s.beside);
    uint64_t end = STREAM * s.blocks;
    if (size == 0 || size > FRAME || place > end || size > end - place || scratch < FRAME)
        return refused(12, 0);
    if (place % STREAM + size <= STREAM)
        return answered(0, s.start + BLOCK * (place / STREAM) + HEAD + place % STREAM);
    for (uint64_t i = 0; i < size; i++)
        bytes[i] = stream_byte(f, &s, place + i);
    struct answer a = answered(1, 0);
    a.b = (struct slice){bytes, size};
    return a;
}

/* Where the read of packet k of a written file begins in the payload stream. Every other read is swapped: a pair has 82 bytes. */
static uint64_t read_place(uint64_t k)
{
    return 82 * (k / 2) + 42 * (k % 2);
}

/* The byte at a place of the payload stream that packets make, by which packet's read it is of; past the last one's it is 0. */
static uint8_t written_byte(struct file packets, uint64_t place)
{
    uint64_t k = 2 * (place / 82) + (place % 82 >= 42), j = place - read_place(k), n = packets.len / PACKET;
    if (k >= n)
        return 0;
    const uint8_t *packet = packets.at + PACKET * k;
    if (k % 2 == 1)
        return j % 2 == 0 ? packet[j + 3] : packet[j - 1];
    return j != 40 ? packet[j] : k + 1 < n ? packet[PACKET + 1] : 0;
}

void model_block(struct file packets, uint64_t block, uint8_t *to)
{
    uint64_t begin = STREAM * block, n = packets.len / PACKET, first = 2 * (begin / 82), end;
    while (first < n && read_place(first) < begin)
        first++;
    for (end = first; end < n && read_place(end) < begin + STREAM;)
        end++;
    bool begins_here = end > first;
    to[0] = begins_here && first % 2 == 1 ? 0x8F : 0x0F;
    to[1] = begins_here ? (uint8_t)(3 + (read_place(first) - begin) / 2) : 0;
    to[2] = (uint8_t)(end - first);
    memcpy(to + 3, "\xFF\0\xFF", 3);
    for (uint64_t i = 0; i < STREAM; i++)
        to[HEAD + i] = written_byte(packets, begin + i);
}

struct answer model_write(struct file header, struct file packets, uint64_t room, uint8_t *out)
{
    if (header.len != DS2_START || (!begins(header, 1, "ds2") && !begins(header, 3, "ds2")))
        return refused(15, 0);
    for (uint64_t k = 0; PACKET * k < packets.len; k++)
        if (packets.len - PACKET * k < PACKET || packets.at[PACKET * k + 40] != 0)
            return refused(16, k);
    uint64_t blocks = (read_place(packets.len / PACKET) + STREAM - 1) / STREAM;
    uint64_t size = DS2_START + BLOCK * blocks;
    if (size > LIMIT)
        return refused(17, LIMIT);
    if (size > room)
        return refused(8, size);
    memcpy(out, header.at, DS2_START);
    for (uint64_t i = 0; i < blocks; i++)
        model_block(packets, i, out + DS2_START + BLOCK * i);
    struct answer a = answered(size, 0);
    a.b = (struct slice){out, size};
    return a;
}
