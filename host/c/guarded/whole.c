/* Every export that takes a whole file, on one file, with rooms that are exact, larger, and one short in each way. Rests on
 * the model. */
#include "guarded.h"

struct lists lists;
uint8_t *want_out, *want_counts, *want_index;

static struct file seen_as(struct slice s)
{
    return (struct file){s.at, s.len};
}

static struct answer number(uint64_t n)
{
    return (struct answer){.numbers = {n}};
}

static uint64_t less_one(uint64_t n)
{
    return n > 0 ? n - 1 : 0;
}

static void detections(struct slice file)
{
    struct file f = seen_as(file);
    uint64_t start = model_start(f);
    const uint64_t sizes[] = {0, 1, BLOCK, start - 1, start, start + 1, less_one(f.len), f.len, f.len + 1, SIZE_MAX - 511,
                              SIZE_MAX};
    struct answer want = number(model_format(f));
    expect(&(struct question){.export = DETECT_FORMAT, .in = file}, &want);
    want = number(start);
    expect(&(struct question){.export = DETECT_START, .in = file}, &want);
    for (size_t i = 0; i < sizeof sizes / sizeof *sizes; i++) {
        want = number(model_type(f, sizes[i]));
        expect(&(struct question){.export = DETECT_TYPE, .in = file, .x = sizes[i]}, &want);
    }
}

/* Headers of some blocks, of 0 to 8 bytes, each lent by itself. */
static void headers(struct slice file)
{
    for (size_t at = BLOCK; at + 8 <= file.len && at <= 8 * BLOCK; at += BLOCK)
        for (size_t len = 0; len <= 8; len++) {
            struct slice header = lend_copy(&header_area, file.at + at, len);
            struct answer want = number(model_good(file.at + at, len));
            expect(&(struct question){.export = IS_HEADER, .in = header}, &want);
        }
}

static void payloads(struct slice file)
{
    struct file f = seen_as(file);
    uint64_t n = model_shape(f, true, true).blocks;
    const uint64_t blocks[] = {0, 1, less_one(n), n, n + 1, SIZE_MAX / BLOCK, SIZE_MAX / BLOCK + 1, SIZE_MAX / 2 + 1, SIZE_MAX};
    for (size_t i = 0; i < sizeof blocks / sizeof *blocks; i++) {
        struct answer want = model_payload(f, blocks[i]);
        expect(&(struct question){.export = PAYLOAD, .in = file, .x = blocks[i]}, &want);
    }
}

static void packets(struct slice file, bool dss)
{
    uint64_t n = model_shape(seen_as(file), dss, !dss).announced;
    const uint64_t rooms[][2] = {{PACKET * n, n},           {PACKET * n + 41, n + 7}, {less_one(PACKET * n), n},
                                 {PACKET * n, less_one(n)}, {0, n},                   {41, 0}};
    for (size_t i = 0; i < sizeof rooms / sizeof *rooms; i++) {
        struct question q = {.export = dss ? DEMUX_DSS : DEMUX_DS2_SP, .in = file, .b_len = rooms[i][0], .c_len = rooms[i][1]};
        struct answer want = model_sp(seen_as(file), dss, rooms[i][0], rooms[i][1], want_out, want_counts);
        expect(&q, &want);
    }
}

/* Packets by their numbers, those around the stream's end among them, and numbers that there are not, in the rooms for one packet. */
static void packets_at_once(struct slice file)
{
    static const size_t rooms[][2] = {{PACKET, 1}, {3 * PACKET + 41, 5}, {PACKET - 1, 1}, {PACKET, 0}, {0, 0}};
    struct shape s = model_shape(seen_as(file), false, true);
    uint64_t n = s.announced, in_stream = STREAM * s.blocks / 41;
    const uint64_t numbers[] = {0, 1, 2, n / 2, in_stream - 1, in_stream, in_stream + 1, n - 2, n - 1, n, n + 1,
                                (1ull << 32) + n / 2, SIZE_MAX / 41 + 1, SIZE_MAX / 2, SIZE_MAX / 2 + 1, SIZE_MAX};
    struct answer all = model_sp(seen_as(file), false, PACKET * n, n, want_out, want_counts);
    for (size_t i = 0; i < sizeof numbers / sizeof *numbers; i++)
        for (size_t k = 0; k < sizeof rooms / sizeof *rooms; k++) {
            struct answer want = model_at_once(&all, numbers[i], rooms[k][0], rooms[k][1]);
            struct question q = {.export = AT_ONCE, .in = file, .b_len = rooms[k][0], .c_len = rooms[k][1], .x = numbers[i]};
            expect(&q, &want);
        }
}

/* Refusals 1, 2, 3 and 11 of a DS2 reading that takes the types of one kind. */
static struct answer admitted(const struct shape *s, bool is_kind)
{
    return s->refusal != 0 || is_kind ? refused(s->refusal, s->beside) : refused(11, s->type);
}

static void segments(struct slice file)
{
    struct shape s = model_shape(seen_as(file), false, true);
    struct answer first = admitted(&s, s.type >= 6 && s.type != 7);
    lists.n = 0;
    if (first.numbers[0] == 0)
        model_segments(seen_as(file), &s, &lists);
    uint64_t n = lists.n, all = QP_WORDS * n;
    const uint64_t rooms[] = {all, all + 3, less_one(all), QP_WORDS * less_one(n), 0, all + 9};
    for (size_t i = 0; i < sizeof rooms / sizeof *rooms; i++) {
        struct answer want = first.numbers[0] != 0 ? first : rooms[i] / QP_WORDS < n ? refused(9, n) : answered(n, s.announced);
        if (want.numbers[0] == 0)
            want.b = (struct slice){(uint8_t *)lists.words, WORD * all};
        expect(&(struct question){.export = DEMUX_QP, .in = file, .b_len = WORD * rooms[i]}, &want);
    }
}

static void records(struct slice file)
{
    struct shape s = model_shape(seen_as(file), false, true);
    struct answer first = admitted(&s, s.type == 7);
    lists.n = lists.segment_count = 0;
    if (first.numbers[0] == 0)
        first = model_records(seen_as(file), &s, &lists);
    uint64_t n = lists.n, m = lists.segment_count, all = QP7_WORDS * m;
    const uint64_t rooms[][2] = {{n, all}, {n + 5, all + 4}, {less_one(n), all}, {n, less_one(all)},
                                 {n, 0},   {less_one(n), 0}, {0, 0}};
    for (size_t i = 0; i < sizeof rooms / sizeof *rooms; i++) {
        struct answer want = first;
        if (first.numbers[0] == 0 && rooms[i][0] < n)
            want = refused(8, n);
        else if (first.numbers[0] == 0 && rooms[i][1] / QP7_WORDS < m)
            want = refused(9, m);
        if (want.numbers[0] == 0) {
            want.b = (struct slice){(uint8_t *)lists.words, WORD * n};
            want.c = (struct slice){(uint8_t *)lists.segments, WORD * all};
        }
        expect(&(struct question){.export = DEMUX_QP7, .in = file, .b_len = WORD * rooms[i][0], .c_len = WORD * rooms[i][1]}, &want);
    }
}

/* Fetch, and then show, whose numbers are the same and which writes nothing. */
static void fetch(struct slice file, uint64_t place, uint64_t size, size_t scratch)
{
    uint8_t bytes[FRAME];
    struct answer want = model_fetch(seen_as(file), place, size, scratch, bytes);
    struct question q = {.export = FETCH, .in = file, .x = place, .y = size, .b_len = scratch};
    expect(&q, &want);
    q.export = SHOW;
    want.b.len = 0;
    expect(&q, &want);
}

/* Places and sizes at every edge: the stream's end, which is the file's, and the seams of blocks. */
static void fetches(struct slice file)
{
    static const uint64_t sizes[] = {0, 1, 2, 12, 55, 56, 57, 512, SIZE_MAX - 55, SIZE_MAX};
    static const size_t scratches[] = {56, 55, 56, 0, 56, 57, 56, 200, 56, 1};
    uint64_t end = STREAM * model_shape(seen_as(file), false, true).blocks;
    for (size_t i = 0; i < sizeof sizes / sizeof *sizes; i++) {
        uint64_t size = sizes[i];
        const uint64_t places[] = {0, end - size, end - size + 1, end, STREAM - 1, STREAM, STREAM - size, 2 * STREAM - 3, SIZE_MAX,
                                   SIZE_MAX - size, SIZE_MAX - size + 1, draw(end + 1)};
        for (size_t k = 0; k < sizeof places / sizeof *places; k++)
            fetch(file, places[k], size, scratches[(i + k) % 10]);
    }
    for (int i = 0; i < 8; i++)
        fetch(file, draw(end + 1), 1 + draw(56), 56);
}

static void frame(uint64_t start, uint64_t length, uint64_t k)
{
    struct answer want = model_frame(start, length, k);
    expect(&(struct question){.export = FRAME_OF, .x = start, .y = length, .z = k}, &want);
}

/* The frames of a QP file's segments, each found and then fetched; of a long segment the first and the last ones. */
static void frames(struct slice file)
{
    struct shape s = model_shape(seen_as(file), false, true);
    if (s.refusal != 0 || s.type < 6 || s.type == 7)
        return;
    model_segments(seen_as(file), &s, &lists);
    for (uint64_t i = 0; i < lists.n && i < 4; i++) {
        const uint32_t *segment = lists.words + QP_WORDS * i;
        uint64_t there = (segment[1] + FRAME - 1) / FRAME;
        for (uint64_t k = 0; k < segment[2] + 2u; k = k == 3 && there > 8 ? there - 2 : k + 1) {
            frame(segment[0], segment[1], k);
            struct answer found = model_frame(segment[0], segment[1], k);
            if (found.numbers[3] > 0)
                fetch(file, found.numbers[2], found.numbers[3], FRAME);
            if (k > there)
                break;
        }
    }
}

static void large_frames(void)
{
    static const uint64_t numbers[] = {0, 1, 55, 56, 57, 1ull << 32, 1ull << 63, UINT64_MAX / 56, UINT64_MAX / 56 + 1,
                                       UINT64_MAX - 56, UINT64_MAX - 55, UINT64_MAX - 1, UINT64_MAX};
    size_t n = sizeof numbers / sizeof *numbers;
    frame(numbers[draw(n)], numbers[draw(n)], numbers[draw(n)]);
    frame(numbers[draw(n)], numbers[draw(n)], draw(3));
    frame(draw(1000), draw(1000), draw(20));
}

void whole_calls(struct slice file)
{
    detections(file);
    headers(file);
    payloads(file);
    packets(file, true);
    packets(file, false);
    packets_at_once(file);
    segments(file);
    records(file);
    fetches(file);
    frames(file);
    large_frames();
    index_calls(file);
    struct answer want = model_tally(seen_as(file), &lists);
    expect(&(struct question){.export = TALLY, .in = file}, &want);
}
