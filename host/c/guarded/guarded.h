/* What the files of the guarded test share: memory between inaccessible pages, one way to ask every export, a model of the
 * format, made files. The test holds the exports of include/klovdrun.h to the format's description (docs/FORMAT.md); the model
 * is written from that alone. */
#ifndef GUARDED_H
#define GUARDED_H

#include "klovdrun.h"

#include <stdbool.h>
#include <stddef.h>
#include <stdint.h>

enum { PAGE = 4096, BLOCK = 512, HEAD = 6, STREAM = 506, PACKET = 42, FRAME = 56, HOLD = 12288, DS2_START = 1536 };
/* bytes of a table's word, and words of a segment's entry */
enum { WORD = 4, QP_WORDS = 4, QP7_WORDS = 3 };
/* bytes of an index before its version, before its entries, and of an entry */
enum { LENGTH = 4, FRONT = 5, ENTRY = 12 };
enum { LIMIT = 268435456, NUMBERS = 11, MOST_FILE = 120000 };

/* ---- guard.c: memory ---- */

/* Where a lent slice stands: its end at an inaccessible page, or its beginning after one. */
enum side { AT_END, AT_START };
extern enum side side;

/* Pages between two inaccessible ones. What is lent to read is seen read-only through `view`, and filled through `fill`. */
struct area {
    uint8_t *view;
    uint8_t *fill;
    size_t size;
};

struct slice {
    uint8_t *at;
    size_t len;
};

struct area area_to_read(size_t size);
struct area area_to_write(size_t size);
struct area area_reserved(size_t size);
void area_allow(const struct area *a, size_t from, size_t to, bool write);
struct slice lend_copy(const struct area *a, const void *bytes, size_t len);
struct slice lend_canary(const struct area *a, size_t len);
void check_canary(const char *what, const struct area *a, struct slice s, const void *want, size_t want_len);

/* ---- ask.c: the exports, asked one at a time ---- */

enum export {
    DETECT_FORMAT, DETECT_START, DETECT_TYPE, IS_HEADER, PAYLOAD, DEMUX_DSS, DEMUX_DS2_SP, AT_ONCE, DEMUX_QP, DEMUX_QP7, FRAME_OF,
    FETCH, SHOW, TALLY, WRITE, BUILD_INDEX, READ_INDEX, FIND_ENTRY, BY_INDEX, OPEN, PIECE, END, EXPORTS
};

/* The arguments of a call. `in` is lent to read, and so is `also`: the packets for a call that writes a file, the index for one
 * that takes one. `b` and `c` are the other slices, by their lengths in bytes, and are placed by the asking; `b` stands where
 * `placed` says, if it is given, and is then looked at by the asker. `x`, `y` and `z` are numbers, in the call's order. For an
 * opening `in` is where the answer is to stand, if it is given. */
struct question {
    enum export export;
    struct slice in;
    struct slice also;
    struct slice placed;
    size_t b_len;
    size_t c_len;
    uint64_t x, y, z;
    klov_reader *reader;
};

/* Where the size of a record that cannot be read, and how many of its bytes are absent, stand among the numbers of an answer and of a tally. */
enum { ANSWER_SIZE = 4, ANSWER_ABSENT = 5, TALLY_SIZE = 9, TALLY_ABSENT = 10 };

/* What must come: so many numbers, and what `b` and `c` begin with afterwards. Everything else in them must be as it was. */
struct answer {
    uint64_t numbers[NUMBERS];
    struct slice b;
    struct slice c;
};

/* Two places for a reader that moves, and one for a copy. */
extern struct area reader_areas[3];
extern uint64_t calls, checks, wrong;
void about(const char *what, uint64_t number);
void prepare_asking(void);
void complain(const char *what, uint64_t expected, uint64_t got);
void check_number(const char *what, uint64_t expected, uint64_t got);
void expect(const struct question *q, const struct answer *want);
void check_all_seen(void);

/* ---- model.c: detection, what is asked first, payload, fetch, frames, a file of packets ---- */

struct file {
    const uint8_t *at;
    size_t len;
};

/* A recording that is not refused by 1, 2 or 3; or its refusal. */
struct shape {
    uint64_t refusal, beside;
    bool dss;
    uint64_t start, blocks, announced;
    uint8_t type;
};

bool model_good(const uint8_t *header, uint64_t len);
uint64_t model_start(struct file f);
uint8_t model_type(struct file f, uint64_t start);
uint8_t model_format(struct file f);
struct shape model_shape(struct file f, bool dss, bool ds2);
const uint8_t *block_head(struct file f, const struct shape *s, uint64_t block);
uint8_t stream_byte(struct file f, const struct shape *s, uint64_t place);
struct answer refused(uint64_t refusal, uint64_t beside);
struct answer answered(uint64_t first, uint64_t second);
struct answer model_payload(struct file f, uint64_t block);
struct answer model_frame(uint64_t start, uint64_t length, uint64_t k);
struct answer model_fetch(struct file f, uint64_t place, uint64_t size, uint64_t scratch, uint8_t *bytes);
void model_block(struct file packets, uint64_t block, uint8_t *to);
struct answer model_write(struct file header, struct file packets, uint64_t room, uint8_t *out);

/* ---- readings.c: packets, segments, records, the tally, a reader ---- */

/* A walk over the reads of an SP recording. In DSS `block` is the next block to look at, and `left` what its predecessor
 * announces still. `sourced`: the carried byte came from the file; `whole`: the packet that was walked over last is whole. */
struct walk {
    uint64_t block, left, place, taken;
    bool swapped, sourced, whole;
    uint8_t carry;
};

struct lists {
    uint32_t *words; /* QP: QP_WORDS a segment. QP7: a record each */
    uint32_t *segments;
    uint64_t n, segment_count, bytes, handed, shorts;
};

uint64_t dss_begin(const uint8_t *head, uint64_t block);
void walk_packets(struct walk *w, struct file f, const struct shape *s, uint64_t packets, uint8_t *out, uint8_t *counts);
struct answer model_sp(struct file f, bool dss, uint64_t out_len, uint64_t counts_len, uint8_t *out, uint8_t *counts);
struct answer model_at_once(const struct answer *whole, uint64_t number, uint64_t out_len, uint64_t counts_len);
void model_segments(struct file f, const struct shape *s, struct lists *l);
struct answer model_records(struct file f, const struct shape *s, struct lists *l);
struct answer model_tally(struct file f, struct lists *l);

enum phase { TAKING, DRAINING, ENDED };

/* A reader, as the format's description has it. `joined` is what it was given, `s` what is known of that. */
struct modelled {
    struct file joined;
    struct shape s;
    struct walk walk;
    enum phase phase;
    uint64_t ready; /* packets that are complete, by the rule of the kind */
    uint64_t front; /* DSS: the first block that waits */
    uint64_t read;  /* DS2: where the next read that is not ready begins, and whether it is swapped */
    bool read_swapped;
};

struct modelled model_open(uint64_t kind, const uint8_t *bytes);
uint64_t model_owed(const struct modelled *m);
struct answer model_piece(struct modelled *m, uint64_t len, uint64_t room, uint8_t *out, uint8_t *counts);
uint64_t model_needed(const struct modelled *m, uint64_t len);
struct answer model_end(struct modelled *m, uint64_t choice, uint64_t room, uint8_t *out, uint8_t *counts);

/* ---- entries.c: the index of a DSS recording ---- */

/* A recording's own index, of so many entries; none where the recording is refused. */
struct indexed {
    struct shape s;
    uint64_t entries;
    struct file index;
};

void put_word(uint8_t *to, uint64_t n);
uint64_t word_at(const uint8_t *at);
struct indexed model_index(struct file f, uint8_t *bytes);
struct answer model_build(const struct indexed *its, uint64_t room);
struct answer model_read(const struct indexed *its, struct file index);
struct answer model_find(struct file f, const struct indexed *its, struct file index, uint64_t packet);
struct answer model_by_index(const struct indexed *its, struct file index, const struct answer *whole, uint64_t packet,
                             uint64_t out_len, uint64_t counts_len);

/* ---- made.c: files from numbers ---- */

uint64_t draw(uint64_t below);
void seed_draws(uint64_t seed);
size_t make_file(uint8_t *bytes);

/* ---- the tests ---- */

void whole_calls(struct slice file);
void reader_calls(struct file f, uint64_t kind);
void reader_opens(void);
void rule_both_ways(struct file f);
void expect_piece(struct modelled *m, klov_reader *r, struct slice piece, uint64_t out_len, uint64_t counts_len);
void expect_end(struct modelled *m, klov_reader *r, uint64_t choice, uint64_t out_len, uint64_t counts_len);
klov_reader *expect_open(uint64_t kind);
void edges(void);
void writings(void);
void index_calls(struct slice file);
void indexes(void);
void largest(void);

/* Where the model writes what must come. */
extern struct area file_area, piece_area, header_area;
extern struct lists lists;
extern uint8_t *want_out, *want_counts, *want_index;
/* How many files were incomplete and complete as announced, in pieces and whole; and of how many, of DSS and of DS2, the strict end answered
 * though they begin swapped. */
extern uint64_t ruled[2], begun_swapped[2];

#endif
