/* A reader's calls: any cut of a file, rooms that are one short and then exact, ends in every state, frames owed asked by an
 * empty piece, readers that are moved and copied. Rests on the model's reader. */
#include "guarded.h"

#include <string.h>

uint64_t ruled[2], begun_swapped[2];

/* Puts a reader into an area of its own, byte by byte. */
static klov_reader *place_reader(int which, const klov_reader *from)
{
    struct slice s = lend_canary(&reader_areas[which], sizeof *from);
    for (size_t i = 0; i < sizeof *from; i++)
        s.at[i] = ((const uint8_t *)from)[i];
    return (klov_reader *)s.at;
}

/* On one side a reader stands still; on the other it moves after each call, and its old bytes are overwritten. */
static klov_reader *moved(klov_reader *r)
{
    if (side == AT_END || (uint8_t *)r == reader_areas[2].view)
        return r;
    int to = (uint8_t *)r == reader_areas[0].view;
    klov_reader *next = place_reader(to, r);
    memset(r, 0xEE, sizeof *r);
    return next;
}

static struct answer opened_as(uint64_t kind)
{
    return kind == 0 || kind == 2 || kind == 3 ? answered(0, 0) : refused(10, kind);
}

klov_reader *expect_open(uint64_t kind)
{
    static klov_reader fresh;
    struct answer want = opened_as(kind);
    expect(&(struct question){.export = OPEN, .x = kind, .reader = &fresh}, &want);
    return place_reader(0, &fresh);
}

static uint64_t room_of(uint64_t out_len, uint64_t counts_len)
{
    return out_len / PACKET < counts_len ? out_len / PACKET : counts_len;
}

void expect_piece(struct modelled *m, klov_reader *r, struct slice piece, uint64_t out_len, uint64_t counts_len)
{
    struct answer want = model_piece(m, piece.len, room_of(out_len, counts_len), want_out, want_counts);
    struct question q = {.export = PIECE, .in = piece, .reader = r, .b_len = out_len, .c_len = counts_len};
    expect(&q, &want);
}

void expect_end(struct modelled *m, klov_reader *r, uint64_t choice, uint64_t out_len, uint64_t counts_len)
{
    struct answer want = model_end(m, choice, room_of(out_len, counts_len), want_out, want_counts);
    expect(&(struct question){.export = END, .reader = r, .x = choice, .b_len = out_len, .c_len = counts_len}, &want);
}

/* A strict end, which hands out nothing whatever room there is. */
static void expect_strict(struct modelled *m, klov_reader *r)
{
    expect_end(m, r, KLOV_STRICT, draw(3 * PACKET), draw(3));
}

/* A choice that is neither: a small one, one whose low bits are an end's, or one of the largest. */
static void expect_neither(struct modelled *m, klov_reader *r)
{
    const uint64_t choices[] = {2, 2 + draw(254), KLOV_LENIENT + (UINT64_C(1) << (1 + draw(63))), UINT64_C(1) << (1 + draw(63)), UINT64_MAX - draw(3)};
    expect_end(m, r, choices[draw(5)], draw(3 * PACKET), draw(3));
}

/* An empty piece asks what is owed: it is taken while the reader takes pieces, and else refused by 6. */
static void ask_owed(struct modelled *m, klov_reader *r)
{
    expect_piece(m, r, lend_copy(&piece_area, "", 0), 0, 0);
}

/* In this state no piece is taken. */
static void no_more_pieces(struct modelled *m, klov_reader *r)
{
    ask_owed(m, r);
    expect_piece(m, r, lend_copy(&piece_area, "x", 1), PACKET, 1);
    expect_neither(m, r);
}

/* Ends a reader: strictly, if that succeeds, else by lenient ends with little room. By no other choice. */
static void end_reader(struct modelled *m, klov_reader *r)
{
    expect_neither(m, r);
    expect_strict(m, r);
    ask_owed(m, r);
    if (m->phase == TAKING)
        expect_end(m, r, KLOV_LENIENT, draw(PACKET), draw(3));
    for (int turn = 0; m->phase == DRAINING; turn++) {
        no_more_pieces(m, r);
        expect_strict(m, r);
        uint64_t room = turn == 0 ? 1 : 1 + draw(model_owed(m) + 1);
        expect_end(m, r, KLOV_LENIENT, PACKET * room + draw(PACKET), turn == 1 ? 0 : room + draw(2));
        r = moved(r);
    }
    if (m->phase != ENDED)
        return;
    no_more_pieces(m, r);
    expect_end(m, r, KLOV_LENIENT, 3 * PACKET, 3);
    expect_strict(m, r);
    expect_end(m, r, KLOV_LENIENT, 0, 0);
    no_more_pieces(m, r);
}

/* A piece with too little room in each way, and then with enough. */
static void give(struct modelled *m, klov_reader *r, uint64_t len)
{
    uint64_t needed = model_needed(m, len);
    check_number("whether KLOV_ROOM suffices", 1, needed <= KLOV_ROOM(model_owed(m), len));
    struct slice piece = lend_copy(&piece_area, m->joined.at + m->joined.len, len);
    if (needed > 0) {
        expect_piece(m, r, piece, PACKET * needed - 1, needed);
        expect_piece(m, r, piece, PACKET * needed, needed - 1);
    }
    if (needed > 1 && draw(4) == 0)
        expect_piece(m, r, piece, 0, 0);
    if (draw(2) == 0)
        expect_piece(m, r, piece, PACKET * needed, needed);
    else
        expect_piece(m, r, piece, PACKET * (needed + draw(3)) + draw(PACKET), needed + draw(3));
}

/* A copy is ended, fed or not, and the original does not notice. */
static void copy_goes_on(const struct modelled *m, const klov_reader *r, struct file f)
{
    struct modelled twin = *m;
    klov_reader *copy = place_reader(2, r);
    if (draw(2) == 0)
        give(&twin, copy, draw(f.len - m->joined.len + 1));
    end_reader(&twin, copy);
}

static uint64_t draw_cut(const struct modelled *m, uint64_t rest, uint64_t manner)
{
    uint64_t to_edge = BLOCK - m->joined.len % BLOCK;
    const uint64_t cuts[] = {rest, 1 + draw(2 * BLOCK), draw(8 * BLOCK), to_edge, to_edge - 1, to_edge + 1, draw(3)};
    uint64_t cut = cuts[manner == 0 ? 0 : manner < 4 ? draw(7) : 1 + draw(5)];
    return cut < rest ? cut : rest;
}

void reader_calls(struct file f, uint64_t kind)
{
    klov_reader *r = expect_open(kind);
    struct modelled m = model_open(kind, f.at);
    uint64_t manner = draw(8);
    ask_owed(&m, r);
    for (int turn = 0; m.joined.len < f.len && turn < 300; turn++) {
        uint64_t before = m.joined.len;
        uint64_t len = draw_cut(&m, f.len - before, manner);
        if (draw(9) == 0)
            copy_goes_on(&m, r, f);
        give(&m, r, len);
        r = moved(r);
        if (draw(2) == 0)
            ask_owed(&m, r);
        if (m.joined.len == before && len > 0)
            break; /* refused by 7: nothing more fits */
        struct modelled strict = m;
        if (draw(6) == 0 && model_end(&strict, KLOV_STRICT, 0, want_out, want_counts).numbers[0] != 0)
            expect_strict(&m, r);
        if (draw(6) == 0)
            expect_neither(&m, r);
    }
    end_reader(&m, r);
}

/* How many packets come before the first with a count of 42. */
static uint64_t leading(const uint8_t *counts, uint64_t packets)
{
    uint64_t n = 0;
    while (n < packets && counts[n] < PACKET)
        n++;
    return n;
}

/* The rule for "complete as announced" is one: of a file that a reader takes, the strict end answers and the first packet's count is 42, if
 * there is one, exactly if the tally's numbers have it. Where the end answers, the tally counts short the packets before the first of 42. */
void rule_both_ways(struct file f)
{
    uint64_t kind = klov_reader_kind(f.at, f.len);
    klov_tallied t = klov_tally(f.at, f.len);
    if (kind == KLOV_READ_WHOLE || t.kind == KLOV_DS2_QP || t.kind == KLOV_DS2_QP7 || t.refusal > KLOV_REFUSED_HEADER)
        return;
    klov_reader r = klov_open(kind).reader;
    uint64_t room = KLOV_ROOM(0, f.len);
    klov_answer a = klov_piece(&r, f.at, f.len, want_out, KLOV_PACKET * room, want_counts, room);
    if (a.refusal == KLOV_REFUSED_HOLD)
        return;
    check_number("a piece with KLOV_ROOM", 0, a.refusal);
    bool answers = klov_end(&r, KLOV_STRICT, want_out, 0, want_counts, 0).refusal == KLOV_ANSWERED;
    bool complete = answers && (a.first == 0 || want_counts[0] == PACKET);
    check_number("whether it is complete, in pieces and whole", (uint64_t)klov_complete_as_announced(&t, f.len), complete);
    if (answers)
        check_number("short ones, in pieces and whole", t.short_count, leading(want_counts, a.first));
    ruled[complete]++;
    begun_swapped[kind == KLOV_READ_DS2] += answers && !complete;
}

/* The reader right after an answer that stands at an edge is the fresh one. */
static void open_at_edge(uint64_t kind)
{
    static struct area place;
    if (place.size == 0)
        place = area_to_write(sizeof(klov_opened));
    struct slice s = lend_canary(&place, sizeof(klov_opened));
    struct answer want = opened_as(kind);
    expect(&(struct question){.export = OPEN, .in = s, .x = kind}, &want);
    check_canary("opened", &place, s, s.at, s.len);
    struct modelled m = model_open(kind, (const uint8_t *)"");
    end_reader(&m, place_reader(0, (klov_reader *)(s.at + sizeof(klov_answer))));
}

/* Every kind there is, many that there are not, and readers that have nothing, a part of a header, or just a header. */
void reader_opens(void)
{
    static const uint64_t kinds[] = {0, 1, 2, 3, 4, 5, 7, 255, 256, 258, 1ull << 32, (1ull << 32) + 2, 1ull << 63, UINT64_MAX};
    static const uint8_t zeros[2 * DS2_START];
    for (size_t i = 0; i < sizeof kinds / sizeof *kinds; i++) {
        about("reader of kind", kinds[i]);
        open_at_edge(kinds[i]);
        for (size_t len = 0; len < sizeof zeros; len += len == 0 || len % BLOCK == BLOCK - 1 || len % BLOCK == 0 ? 1 : BLOCK - 2) {
            klov_reader *r = expect_open(kinds[i]);
            struct modelled m = model_open(kinds[i], zeros);
            give(&m, r, len);
            end_reader(&m, r);
        }
    }
}
