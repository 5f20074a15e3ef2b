/* Asks one export at a time and compares everything that comes back with what must come: the numbers, the lent slices, the
 * reader. A call that touches memory it was not lent is caught, reported, and counts as wrong. Rests on guard.c. */
#define _GNU_SOURCE
#include "guarded.h"

#include <inttypes.h>
#include <setjmp.h>
#include <signal.h>
#include <stdio.h>
#include <stdlib.h>
#include <string.h>

struct named {
    const char *name;
    size_t numbers;
    const char *named[NUMBERS];
    uint64_t refusals; /* a bit for each refusal that the header lists at the call */
};

#define BIT(n) (1ull << (n))
#define WHOLE (BIT(1) | BIT(2) | BIT(3))
#define INDEX (BIT(19) | BIT(20) | BIT(21))
#define SIX {"refusal", "beside", "first", "second", "size", "absent"}

static const struct named exports[EXPORTS] = {
    [DETECT_FORMAT] = {"klov_detect_format", 1, {"answer"}, 0},
    [DETECT_START] = {"klov_detect_ds2_audio_start", 1, {"answer"}, 0},
    [DETECT_TYPE] = {"klov_detect_ds2_format_type", 1, {"answer"}, 0},
    [IS_HEADER] = {"klov_is_ds2_audio_block_header", 1, {"answer"}, 0},
    [PAYLOAD] = {"klov_payload", 6, SIX, WHOLE | BIT(12)},
    [DEMUX_DSS] = {"klov_demux_dss", 6, SIX, WHOLE | BIT(8)},
    [DEMUX_DS2_SP] = {"klov_demux_ds2_sp", 6, SIX, WHOLE | BIT(11) | BIT(8)},
    [AT_ONCE] = {"klov_ds2_sp_packet", 6, SIX, WHOLE | BIT(11) | BIT(18) | BIT(8)},
    [DEMUX_QP] = {"klov_demux_ds2_qp", 6, SIX, WHOLE | BIT(11) | BIT(9)},
    [DEMUX_QP7] = {"klov_demux_ds2_qp7", 6, SIX, WHOLE | BIT(11) | BIT(4) | BIT(5) | BIT(8) | BIT(9)},
    [FRAME_OF] = {"klov_frame", 6, SIX, 0},
    [FETCH] = {"klov_fetch", 6, SIX, WHOLE | BIT(12)},
    [SHOW] = {"klov_show", 6, SIX, WHOLE | BIT(12)},
    [TALLY] = {"klov_tally", 11, {"refusal", "beside", "kind", "start", "blocks", "announced", "handed", "short_count", "bytes", "size", "absent"},
               WHOLE | BIT(4) | BIT(5)},
    [WRITE] = {"klov_write_ds2_sp", 6, SIX, BIT(15) | BIT(16) | BIT(17) | BIT(8)},
    [BUILD_INDEX] = {"klov_build_index", 6, SIX, WHOLE | BIT(8)},
    [READ_INDEX] = {"klov_read_index", 6, SIX, WHOLE | INDEX},
    [FIND_ENTRY] = {"klov_find_entry", 7, {"refusal", "beside", "number", "first", "place", "size", "absent"}, WHOLE | INDEX | BIT(18)},
    [BY_INDEX] = {"klov_dss_packet", 6, SIX, WHOLE | INDEX | BIT(18) | BIT(8)},
    [OPEN] = {"klov_open", 6, SIX, BIT(10)},
    [PIECE] = {"klov_piece", 6, SIX, BIT(6) | BIT(2) | BIT(7) | BIT(8)},
    [END] = {"klov_end", 6, SIX, BIT(6) | BIT(22) | BIT(3) | BIT(13) | BIT(14)},
};

uint64_t calls, checks, wrong;
struct area reader_areas[3];
static struct area b_area, c_area, scratch_area;
static uint64_t seen[EXPORTS];
static const char *input = "";
static uint64_t input_number;
static enum export asked;
static sigjmp_buf landing;

void about(const char *what, uint64_t number)
{
    input = what;
    input_number = number;
}

void complain(const char *what, uint64_t expected, uint64_t got)
{
    wrong++;
    printf("wrong: %s, %s %" PRIu64 ", slices %s at the edge: %s: expected %" PRIu64 ", got %" PRIu64 "\n", exports[asked].name,
           input, input_number, side == AT_END ? "end" : "begin", what, expected, got);
}

void check_number(const char *what, uint64_t expected, uint64_t got)
{
    checks++;
    if (expected != got)
        complain(what, expected, got);
}

static void on_fault(int signal)
{
    (void)signal;
    siglongjmp(landing, 1);
}

/* Faults come again and again, so their signal is not held back while it is handled. */
void prepare_asking(void)
{
    struct sigaction action = {.sa_handler = on_fault, .sa_flags = SA_NODEFER};
    sigaction(SIGSEGV, &action, NULL);
    sigaction(SIGBUS, &action, NULL);
    b_area = area_to_write(80u << 20);
    c_area = area_to_write(4u << 20);
    scratch_area = area_to_read(PAGE);
    for (int i = 0; i < 3; i++)
        reader_areas[i] = area_to_write(sizeof(klov_reader));
}

static void perform_whole(const struct question *q, struct slice b, struct slice c, uint64_t *numbers)
{
    const uint8_t *file = q->in.at;
    size_t len = q->in.len;
    klov_answer a = {0};
    if (q->export == PAYLOAD)
        a = klov_payload(file, len, q->x);
    else if (q->export == DEMUX_DSS)
        a = klov_demux_dss(file, len, b.at, b.len, c.at, c.len);
    else if (q->export == DEMUX_DS2_SP)
        a = klov_demux_ds2_sp(file, len, b.at, b.len, c.at, c.len);
    else if (q->export == AT_ONCE)
        a = klov_ds2_sp_packet(file, len, q->x, b.at, b.len, c.at, c.len);
    else if (q->export == DEMUX_QP)
        a = klov_demux_ds2_qp(file, len, (uint32_t *)b.at, b.len / WORD);
    else if (q->export == DEMUX_QP7)
        a = klov_demux_ds2_qp7(file, len, (uint32_t *)b.at, b.len / WORD, (uint32_t *)c.at, c.len / WORD);
    else if (q->export == FRAME_OF)
        a = klov_frame(q->x, q->y, q->z);
    else if (q->export == FETCH)
        a = klov_fetch(file, len, q->x, q->y, b.at, b.len);
    else if (q->export == SHOW)
        a = klov_show(file, len, q->x, q->y, b.at, b.len);
    else if (q->export == WRITE)
        a = klov_write_ds2_sp(file, len, q->also.at, q->also.len, b.at, b.len);
    else if (q->export == BUILD_INDEX)
        a = klov_build_index(file, len, b.at, b.len);
    else if (q->export == READ_INDEX)
        a = klov_read_index(file, len, q->also.at, q->also.len);
    else if (q->export == BY_INDEX)
        a = klov_dss_packet(file, len, q->also.at, q->also.len, q->x, b.at, b.len, c.at, c.len);
    memcpy(numbers, &a, sizeof a);
}

/* Where a structure is answered, its place is lent too, unseen: by x86-64's System V convention it is the call's first argument. So
 * it can stand at an edge. C itself says nothing of such a call; this file is for that convention alone. */
static klov_answer open_in_place(klov_opened *place, uint64_t kind)
{
    klov_opened *(*opening)(klov_opened *, uint64_t) = (klov_opened * (*)(klov_opened *, uint64_t))(void (*)(void))klov_open;
    opening(place, kind);
    return place->answer;
}

static void perform_reader(const struct question *q, struct slice b, struct slice c, uint64_t *numbers)
{
    klov_answer a = {0};
    if (q->export == OPEN && q->in.len > 0) {
        a = open_in_place((klov_opened *)q->in.at, q->x);
    } else if (q->export == OPEN) {
        klov_opened opened = klov_open(q->x);
        a = opened.answer;
        *q->reader = opened.reader;
    } else if (q->export == PIECE) {
        a = klov_piece(q->reader, q->in.at, q->in.len, b.at, b.len, c.at, c.len);
    } else {
        a = klov_end(q->reader, q->x, b.at, b.len, c.at, c.len);
    }
    memcpy(numbers, &a, sizeof a);
}

static void perform(const struct question *q, struct slice b, struct slice c, uint64_t *numbers)
{
    if (q->export == DETECT_FORMAT) {
        numbers[0] = klov_detect_format(q->in.at, q->in.len);
    } else if (q->export == DETECT_START) {
        numbers[0] = klov_detect_ds2_audio_start(q->in.at, q->in.len);
    } else if (q->export == DETECT_TYPE) {
        numbers[0] = klov_detect_ds2_format_type(q->in.at, q->in.len, q->x);
    } else if (q->export == IS_HEADER) {
        numbers[0] = klov_is_ds2_audio_block_header(q->in.at, q->in.len);
    } else if (q->export == TALLY) {
        klov_tallied t = klov_tally(q->in.at, q->in.len);
        memcpy(numbers, &t, sizeof t);
    } else if (q->export == FIND_ENTRY) {
        klov_entry e = klov_find_entry(q->in.at, q->in.len, q->also.at, q->also.len, q->x);
        memcpy(numbers, &e, sizeof e);
    } else if (q->export >= OPEN) {
        perform_reader(q, b, c, numbers);
    } else {
        perform_whole(q, b, c, numbers);
    }
}

static bool call(const struct question *q, struct slice b, struct slice c, uint64_t *numbers)
{
    calls++;
    asked = q->export;
    if (sigsetjmp(landing, 0) != 0)
        return false;
    perform(q, b, c, numbers);
    return true;
}

/* A refused call leaves the reader as it was; what is beside the reader no call touches. */
static void check_reader(const struct question *q, const klov_reader *before, bool refusal)
{
    struct slice stands = {(uint8_t *)q->reader, sizeof *q->reader};
    for (int i = 0; i < 3; i++)
        if (stands.at >= reader_areas[i].view && stands.at < reader_areas[i].view + reader_areas[i].size)
            check_canary("reader", &reader_areas[i], stands, refusal ? before : q->reader, sizeof *q->reader);
}

static void check_answer(const struct question *q, const struct answer *want, const uint64_t *numbers)
{
    const struct named *e = &exports[q->export];
    for (size_t i = 0; i < e->numbers; i++)
        check_number(e->named[i], want->numbers[i], numbers[i]);
    if (e->numbers > 1 && numbers[0] < 64)
        seen[q->export] |= BIT(numbers[0]);
}

/* Asks, with `b` and `c` placed at the side that is on, and compares. */
void expect(const struct question *q, const struct answer *want)
{
    static klov_reader before;
    static const uint8_t zeros[PAGE];
    uint64_t numbers[NUMBERS] = {0};
    bool is_placed = q->placed.len > 0;
    struct slice b = is_placed           ? q->placed
                     : q->export == SHOW ? lend_copy(&scratch_area, zeros, q->b_len)
                                         : lend_canary(&b_area, q->b_len);
    struct slice c = lend_canary(&c_area, q->c_len);
    bool advances = q->reader != NULL && q->export != OPEN;
    if (advances)
        before = *q->reader;
    if (!call(q, b, c, numbers)) {
        complain("fault: memory that was not lent is touched", 0, 1);
        return;
    }
    check_answer(q, want, numbers);
    if (q->export != SHOW && !is_placed)
        check_canary("first lent slice", &b_area, b, want->b.at, want->b.len);
    check_canary("second lent slice", &c_area, c, want->c.at, want->c.len);
    if (advances)
        check_reader(q, &before, numbers[0] != 0);
}

/* Every refusal that the header lists at a call has come, and no other; and every call has succeeded. */
void check_all_seen(void)
{
    about("all inputs", 0);
    for (int e = 0; e < EXPORTS; e++) {
        asked = (enum export)e;
        if (exports[e].numbers > 1)
            check_number("refusals that came, a bit each", exports[e].refusals | 1, seen[e]);
    }
}
