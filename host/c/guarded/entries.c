/* The model of an index, written from its description (docs/FORMAT.md): a DSS recording's own index, and what is answered where
 * it, or any other bytes, are given for one. Rests on model.c and readings.c. */
#include "guarded.h"

#include <string.h>

/* Big-endian. */
void put_word(uint8_t *to, uint64_t n)
{
    for (int i = 0; i < WORD; i++)
        to[i] = (uint8_t)(n >> 8 * (WORD - 1 - i));
}

uint64_t word_at(const uint8_t *at)
{
    return (uint64_t)at[0] << 24 | (uint64_t)at[1] << 16 | (uint64_t)at[2] << 8 | at[3];
}

/* The recording's own index, which is put into `bytes`: an entry for each block that announces something. */
struct indexed model_index(struct file f, uint8_t *bytes)
{
    struct indexed its = {.s = model_shape(f, true, false), .index = {bytes, FRONT}};
    uint64_t packets = 0;
    for (uint64_t i = 0; i < its.s.blocks; i++) {
        const uint8_t *head = block_head(f, &its.s, i);
        if (head[2] == 0)
            continue;
        put_word(bytes + its.index.len, i);
        put_word(bytes + its.index.len + WORD, packets);
        put_word(bytes + its.index.len + 2 * WORD, dss_begin(head, i));
        its.index.len += ENTRY;
        its.entries++;
        packets += head[2];
    }
    put_word(bytes, its.index.len - LENGTH);
    bytes[LENGTH] = 1;
    return its;
}

struct answer model_build(const struct indexed *its, uint64_t room)
{
    if (its->s.refusal != 0)
        return refused(its->s.refusal, its->s.beside);
    if (its->index.len > room)
        return refused(8, its->index.len);
    struct answer a = answered(its->index.len, its->entries);
    a.b = (struct slice){(uint8_t *)its->index.at, its->index.len};
    return a;
}

/* How many entries, from the first on, are there with all their bytes and are the recording's. */
static uint64_t right_entries(const struct indexed *its, struct file index)
{
    uint64_t n = 0;
    for (size_t at = FRONT; n < its->entries && at + ENTRY <= index.len; at += ENTRY, n++)
        if (memcmp(index.at + at, its->index.at + at, ENTRY) != 0)
            break;
    return n;
}

struct answer model_read(const struct indexed *its, struct file index)
{
    if (its->s.refusal != 0)
        return refused(its->s.refusal, its->s.beside);
    if (index.len < LENGTH || word_at(index.at) == 0 || word_at(index.at) != index.len - LENGTH)
        return refused(19, 0);
    if (index.at[LENGTH] != 1)
        return refused(20, index.at[LENGTH]);
    uint64_t right = right_entries(its, index);
    if (right < its->entries || index.len > FRONT + ENTRY * right)
        return refused(21, right);
    return answered(its->entries, its->s.announced);
}

/* The block that announces the packet is looked for among the blocks themselves. */
struct answer model_find(struct file f, const struct indexed *its, struct file index, uint64_t packet)
{
    struct answer a = model_read(its, index);
    if (a.numbers[0] != 0)
        return a;
    if (packet >= its->s.announced)
        return refused(18, its->s.announced);
    uint64_t block = 0, first = 0;
    while (packet - first >= block_head(f, &its->s, block)[2]) {
        first += block_head(f, &its->s, block)[2];
        block++;
    }
    return (struct answer){.numbers = {0, 0, block, first, dss_begin(block_head(f, &its->s, block), block)}};
}

/* The packet is the whole reading's. */
struct answer model_by_index(const struct indexed *its, struct file index, const struct answer *whole, uint64_t packet,
                             uint64_t out_len, uint64_t counts_len)
{
    struct answer a = model_read(its, index);
    return a.numbers[0] != 0 ? a : model_at_once(whole, packet, out_len, counts_len);
}
