/* The model goes on: packets, segments, records, the tally, and a reader in pieces, as docs/FORMAT.md has them.
 * Rests on model.c. */
#include "guarded.h"

#include <string.h>

static unsigned read_size(bool swapped)
{
    return swapped ? 40 : PACKET;
}

/* DSS: where the first read of a block begins in the payload stream. */
uint64_t dss_begin(const uint8_t *head, uint64_t block)
{
    unsigned twice = 2u * head[1] + 2u * (head[0] >> 7);
    unsigned inside = twice < 6 ? 0 : twice - 6;
    return STREAM * block + (inside > STREAM ? STREAM : inside);
}

static void packet(const uint8_t *c, bool swapped, uint8_t *carry, uint8_t *out)
{
    if (!swapped) {
        memcpy(out, c, PACKET);
        *carry = c[40];
    } else {
        for (int i = 0; i <= 38; i += 2)
            out[i] = c[i + 1];
        out[1] = *carry;
        for (int i = 3; i <= 41; i += 2)
            out[i] = c[i - 3];
    }
    out[40] = 0;
}

/* Moves to the read of the next packet: in DS2 only the first needs it, in DSS the first of each announcing block. */
static void walk_on(struct walk *w, struct file f, const struct shape *s)
{
    if (!s->dss && w->taken == 0)
        w->swapped = block_head(f, s, 0)[0] >> 7;
    while (s->dss && w->left == 0) {
        const uint8_t *head = block_head(f, s, w->block);
        w->left = head[2];
        w->place = dss_begin(head, w->block);
        w->swapped = head[0] >> 7;
        w->block++;
    }
}

/* So many packets more; the caller knows that they are announced. */
void walk_packets(struct walk *w, struct file f, const struct shape *s, uint64_t packets, uint8_t *out, uint8_t *counts)
{
    uint64_t end = STREAM * s->blocks;
    for (uint64_t n = 0; n < packets; n++) {
        walk_on(w, f, s);
        unsigned size = read_size(w->swapped);
        uint8_t c[PACKET];
        for (unsigned i = 0; i < size; i++)
            c[i] = stream_byte(f, s, w->place + i);
        packet(c, w->swapped, &w->carry, out + PACKET * n);
        uint64_t there = w->place < end ? end - w->place : 0;
        counts[n] = (uint8_t)(there < size ? there : size);
        w->whole = there >= size && (!w->swapped || w->sourced);
        if (!w->swapped)
            w->sourced = there > 40;
        w->place += size;
        w->swapped = !w->swapped;
        w->left -= s->dss;
        w->taken++;
    }
}

static struct answer with_packets(struct answer a, uint8_t *out, uint8_t *counts)
{
    a.b = (struct slice){out, PACKET * a.numbers[2]};
    a.c = (struct slice){counts, a.numbers[2]};
    return a;
}

static uint64_t packet_room(uint64_t out_len, uint64_t counts_len)
{
    return out_len / PACKET < counts_len ? out_len / PACKET : counts_len;
}

struct answer model_sp(struct file f, bool dss, uint64_t out_len, uint64_t counts_len, uint8_t *out, uint8_t *counts)
{
    struct shape s = model_shape(f, dss, !dss);
    struct walk w = {0};
    if (s.refusal != 0)
        return refused(s.refusal, s.beside);
    if (!dss && s.type >= 6)
        return refused(11, s.type);
    if (packet_room(out_len, counts_len) < s.announced)
        return refused(8, s.announced);
    walk_packets(&w, f, &s, s.announced, out, counts);
    return with_packets(answered(s.announced, 0), out, counts);
}

/* One packet by its number, from what the whole reading answers where there is room for all. */
struct answer model_at_once(const struct answer *whole, uint64_t number, uint64_t out_len, uint64_t counts_len)
{
    if (whole->numbers[0] != 0)
        return *whole;
    if (number >= whole->numbers[2])
        return refused(18, whole->numbers[2]);
    if (packet_room(out_len, counts_len) < 1)
        return refused(8, 1);
    return with_packets(answered(1, 0), whole->b.at + PACKET * number, whole->c.at + number);
}

static uint64_t frames_begin(const uint8_t *head, uint64_t block)
{
    return STREAM * block + (head[1] < 3 ? 0 : 2u * head[1] - 6);
}

static void close_segment(struct lists *l, uint64_t start, uint64_t place, uint64_t frames, uint64_t stream_end)
{
    if (frames == 0)
        return;
    uint64_t length = (place < stream_end ? place : stream_end) - start;
    uint32_t entry[QP_WORDS] = {(uint32_t)start, (uint32_t)length, (uint32_t)frames, l->n > 0};
    memcpy(l->words + QP_WORDS * l->n, entry, sizeof entry);
    l->n++;
    l->bytes += length;
    l->handed += (length + FRAME - 1) / FRAME;
    l->shorts += length % FRAME > 0;
}

void model_segments(struct file f, const struct shape *s, struct lists *l)
{
    uint64_t start = 0, place = 0, frames = 0;
    l->n = l->bytes = l->handed = l->shorts = 0;
    for (uint64_t i = 0; i < s->blocks; i++) {
        const uint8_t *head = block_head(f, s, i);
        uint64_t begin = frames_begin(head, i);
        if (i == 0 || begin != place) {
            close_segment(l, start, place, frames, STREAM * s->blocks);
            start = place = begin;
            frames = 0;
        }
        frames += head[2];
        place += FRAME * (uint64_t)head[2];
    }
    close_segment(l, start, place, frames, STREAM * s->blocks);
}

static void close_records(struct lists *l, uint64_t first)
{
    if (l->n == first)
        return;
    uint32_t entry[QP7_WORDS] = {(uint32_t)first, (uint32_t)(l->n - first), l->segment_count > 0};
    memcpy(l->segments + QP7_WORDS * l->segment_count, entry, sizeof entry);
    l->segment_count++;
}

/* Refusal 4 or 5 of a record: its size, if it can be told, and how many bytes lie past the stream's end. */
static struct answer lacking(uint64_t refusal, uint64_t place, uint64_t size, uint64_t absent)
{
    struct answer a = refused(refusal, place);
    a.numbers[ANSWER_SIZE] = size;
    a.numbers[ANSWER_ABSENT] = absent;
    return a;
}

/* So many records from a place on; or refusal 4 or 5. */
static struct answer records_of(struct file f, const struct shape *s, struct lists *l, uint64_t *place, unsigned count)
{
    uint64_t end = STREAM * s->blocks;
    for (unsigned i = 0; i < count; i++) {
        uint64_t there = *place < end ? end - *place : 0;
        if (there < 2)
            return lacking(4, *place, 0, 2 - there);
        uint64_t size = stream_byte(f, s, *place + 1) & 0x80 ? 56 : 12;
        if (there < size)
            return lacking(5, *place, size, size - there);
        l->words[l->n++] = (uint32_t)*place;
        l->bytes += size;
        *place += size;
    }
    return answered(0, 0);
}

struct answer model_records(struct file f, const struct shape *s, struct lists *l)
{
    uint64_t place = 0, first = 0;
    l->n = l->segment_count = l->bytes = l->shorts = 0;
    for (uint64_t i = 0; i < s->blocks; i++) {
        const uint8_t *head = block_head(f, s, i);
        uint64_t raised = head[2] > 0 ? frames_begin(head, i) : STREAM * (i + 1);
        if (head[2] == 0) {
            close_records(l, first);
            first = l->n;
        }
        if (place < raised)
            place = raised;
        struct answer a = records_of(f, s, l, &place, head[2]);
        if (a.numbers[0] != 0)
            return a;
    }
    close_records(l, first);
    l->handed = l->n;
    return answered(l->n, l->segment_count);
}

/* SP: all announced packets are handed out; which are short, and the stream's bytes, are counted packet by packet. */
static void tally_sp(struct file f, const struct shape *s, struct lists *l)
{
    struct walk w = {0};
    l->bytes = l->shorts = 0;
    l->handed = s->announced;
    for (uint64_t n = 0; n < s->announced; n++) {
        uint8_t out[PACKET], count;
        walk_packets(&w, f, s, 1, out, &count);
        l->bytes += count;
        l->shorts += !w.whole;
    }
}

/* The same refusal, of records, by the numbers of a tally. */
static struct answer tally_refused(struct answer a)
{
    struct answer tally = refused(a.numbers[0], a.numbers[1]);
    tally.numbers[TALLY_SIZE] = a.numbers[ANSWER_SIZE];
    tally.numbers[TALLY_ABSENT] = a.numbers[ANSWER_ABSENT];
    return tally;
}

struct answer model_tally(struct file f, struct lists *l)
{
    struct shape s = model_shape(f, true, true);
    struct answer a = refused(s.refusal, s.beside);
    if (s.refusal != 0)
        return a;
    uint64_t kind = s.dss ? 0 : s.type < 6 ? 1 : s.type == 7 ? 3 : 2;
    if (kind == 3)
        a = model_records(f, &s, l);
    else if (kind == 2)
        model_segments(f, &s, l);
    else
        tally_sp(f, &s, l);
    if (a.numbers[0] != 0)
        return tally_refused(a);
    return (struct answer){.numbers = {0, 0, kind, s.start, s.blocks, s.announced, l->handed, l->shorts, l->bytes}};
}

struct modelled model_open(uint64_t kind, const uint8_t *bytes)
{
    struct modelled m = {.joined = {bytes, 0}, .s = {.dss = kind != 0, .start = kind != 0 ? BLOCK * kind : DS2_START}};
    if (kind != 0 && kind != 2 && kind != 3)
        m.phase = ENDED;
    return m;
}

uint64_t model_owed(const struct modelled *m)
{
    return m->s.announced - m->walk.taken;
}

/* DS2: a packet is ready when its read is complete. DSS: a block's packets are, together, and never before those of the block
 * in front. */
static void make_ready(struct modelled *m)
{
    uint64_t end = STREAM * m->s.blocks;
    while (!m->s.dss && m->ready < m->s.announced && m->read + read_size(m->read_swapped) <= end) {
        m->read += read_size(m->read_swapped);
        m->read_swapped = !m->read_swapped;
        m->ready++;
    }
    while (m->s.dss && m->front < m->s.blocks) {
        const uint8_t *head = block_head(m->joined, &m->s, m->front);
        unsigned swapped_reads = (head[2] + (head[0] >> 7)) / 2;
        if (head[2] > 0 && dss_begin(head, m->front) + 42u * head[2] - 2u * swapped_reads > end)
            return;
        m->ready += head[2];
        m->front++;
    }
}

/* Joins bytes, block by block. False where what is unread would not fit in the hold. */
static bool join(struct modelled *m, uint64_t len)
{
    m->joined.len += len;
    uint64_t blocks = m->joined.len < m->s.start ? 0 : (m->joined.len - m->s.start) / BLOCK;
    while (m->s.blocks < blocks) {
        const uint8_t *head = block_head(m->joined, &m->s, m->s.blocks);
        if (m->s.blocks == 0)
            m->read_swapped = head[0] >> 7;
        m->s.blocks++;
        m->s.announced += head[2];
        if (!m->s.dss && STREAM * m->s.blocks - m->read > HOLD)
            return false;
        make_ready(m);
    }
    return true;
}

static struct answer owing(const struct modelled *m, struct answer a)
{
    a.numbers[3] = model_owed(m);
    return a;
}

/* How many packets a piece would bring, if it is taken. */
uint64_t model_needed(const struct modelled *m, uint64_t len)
{
    struct modelled next = *m;
    if (m->phase != TAKING || m->joined.len + len > LIMIT || !join(&next, len))
        return 0;
    return next.ready - m->ready;
}

struct answer model_piece(struct modelled *m, uint64_t len, uint64_t room, uint8_t *out, uint8_t *counts)
{
    struct modelled next = *m;
    if (m->phase != TAKING)
        return owing(m, refused(6, 0));
    if (m->joined.len + len > LIMIT)
        return owing(m, refused(2, LIMIT));
    if (!join(&next, len))
        return owing(m, refused(7, HOLD));
    uint64_t needed = next.ready - m->ready;
    if (needed > room)
        return owing(m, refused(8, needed));
    walk_packets(&next.walk, next.joined, &next.s, needed, out, counts);
    *m = next;
    return with_packets(owing(m, answered(needed, 0)), out, counts);
}

static bool inside_header(const struct modelled *m)
{
    return m->joined.len > 0 && m->joined.len < m->s.start;
}

static struct answer model_strict(struct modelled *m)
{
    uint64_t cut = m->joined.len < m->s.start ? 0 : (m->joined.len - m->s.start) % BLOCK;
    if (m->phase == DRAINING)
        return owing(m, refused(6, 0));
    if (m->phase == TAKING && inside_header(m))
        return owing(m, refused(3, m->s.start));
    if (m->phase == TAKING && cut > 0)
        return owing(m, refused(13, cut));
    if (m->phase == TAKING && model_owed(m) > 0)
        return owing(m, refused(14, model_owed(m)));
    m->phase = ENDED;
    return answered(0, 0);
}

static struct answer model_lenient(struct modelled *m, uint64_t room, uint8_t *out, uint8_t *counts)
{
    if (m->phase == TAKING && inside_header(m))
        return owing(m, refused(3, m->s.start));
    uint64_t packets = model_owed(m) < room ? model_owed(m) : room;
    walk_packets(&m->walk, m->joined, &m->s, packets, out, counts);
    m->phase = model_owed(m) > 0 ? DRAINING : ENDED;
    return with_packets(owing(m, answered(packets, 0)), out, counts);
}

struct answer model_end(struct modelled *m, uint64_t choice, uint64_t room, uint8_t *out, uint8_t *counts)
{
    if (choice == KLOV_STRICT)
        return model_strict(m);
    if (choice == KLOV_LENIENT)
        return model_lenient(m, room, out, counts);
    return owing(m, refused(22, 0));
}
