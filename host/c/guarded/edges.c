/* Files at the edges of the format, by hand: a few bytes, headers one short and one more, counts 0 and 255, for every magic;
 * and the examples of the format's description (docs/FORMAT.md) with the numbers that stand there, which hold the model to it
 * too. */
#include "guarded.h"

#include <string.h>

static uint8_t bytes[MOST_FILE];

static void run(const char *what, uint64_t number, size_t len)
{
    about(what, number);
    seed_draws(number);
    struct slice file = lend_copy(&file_area, bytes, len);
    whole_calls(file);
    uint64_t own = bytes[3] == 's' && (bytes[0] == 2 || bytes[0] == 3) ? bytes[0] : 0;
    uint64_t other = own == 0 ? 2 : 0;
    reader_calls((struct file){file.at, file.len}, number % 5 == 0 ? other : own);
}

/* A block from `at` on, with a payload that has no zeros. */
static void put_block(size_t at, uint8_t flag, uint8_t byte1, uint8_t count, uint8_t type)
{
    memcpy(bytes + at, (uint8_t[HEAD]){flag, byte1, count, 0xFF, type, 0xFF}, HEAD);
    for (size_t i = HEAD; i < BLOCK; i++)
        bytes[at + i] = (uint8_t)(1 + (i * 7 + at / BLOCK) % 255);
}

static void start_file(const char *magic)
{
    memset(bytes, 0, sizeof bytes);
    memcpy(bytes, magic, 4);
}

static void few_bytes(void)
{
    static const char magics[][5] = {"\2dss", "\3dss", "\1ds2", "\3ds2", "\7ds2", "\3enc",
                                     "\6dss", "\2ds2", "\1dss", "\7dss", "\1dsx"};
    for (size_t m = 0; m < sizeof magics / sizeof *magics; m++)
        for (size_t len = 0; len <= 8; len++) {
            start_file(magics[m]);
            run("few bytes", 10 * m + len, len);
        }
}

/* Lengths around every boundary, with blocks that are silent, full, or announce more than there is. */
static void around_headers(void)
{
    static const char magics[][5] = {"\2dss", "\3dss", "\1ds2", "\3ds2", "\7ds2", "\3enc"};
    static const size_t lengths[] = {1023, 1024, 1025, 1535, 1536, 1537, 0x604, 0x605, 2047,
                                     2048, 2049, 4095, 4096, 4097, 4100, 4101, 4608};
    static const uint8_t blocks[][2] = {{0, 0}, {1, 6}, {255, 0}, {255, 6}, {9, 7}, {255, 7}, {12, 4}};
    for (size_t m = 0; m < sizeof magics / sizeof *magics; m++)
        for (size_t b = 0; b < sizeof blocks / sizeof *blocks; b++)
            for (size_t i = 0; i < sizeof lengths / sizeof *lengths; i++) {
                start_file(magics[m]);
                for (size_t at = magics[m][0] == 2 ? 1024 : DS2_START; at < 4608; at += BLOCK)
                    put_block(at, at % 1024 == 0 ? 0x0F : 0x8F, (uint8_t)(at / 64), blocks[b][0], blocks[b][1]);
                run("length around a header", 1000 * m + 100 * b + i, lengths[i]);
            }
}

/* 24 silent blocks fit into the hold and 25 do not, however they are cut. */
static void silence(void)
{
    for (uint64_t n = 23; n <= 27; n++) {
        start_file("\1ds2");
        for (size_t i = 0; i < n; i++)
            put_block(DS2_START + BLOCK * i, 0x8F, 3, 0, 0);
        put_block(DS2_START + BLOCK * n, 0x0F, 3, 255, 0);
        run("silent blocks", n, DS2_START + BLOCK * (n + 1));
    }
}

static void example(enum export export, size_t len, const uint64_t *numbers, size_t room)
{
    struct question q = {.export = export, .in = lend_copy(&file_area, bytes, len), .b_len = room, .c_len = room};
    struct answer want = {.b = {want_out, 0}};
    memcpy(want.numbers, numbers, sizeof want.numbers);
    expect(&q, &want);
}

#define EXAMPLE(export, len, ...) example(export, len, (const uint64_t[NUMBERS]){__VA_ARGS__}, 0)

static void examples(void)
{
    about("example of the description", 1);
    start_file("\1ds2");
    EXAMPLE(TALLY, 1536, 0, 0, 1, 1536);
    EXAMPLE(TALLY, 1535, 3, 1536);
    about("example of the description", 2);
    put_block(1536, 0x0F, 3, 10, 6);
    put_block(2048, 0x0F, 30, 1, 6);
    EXAMPLE(DEMUX_QP, 2560, 9, 1);
    put_block(1536, 0x0F, 3, 9, 6);
    put_block(2048, 0x0F, 3, 1, 6);
    EXAMPLE(DEMUX_QP, 2560, 9, 2);
    put_block(1536, 0x0F, 3, 12, 6);
    EXAMPLE(TALLY, 2048, 0, 0, 2, 1536, 1, 12, 10, 1, 506);
    about("example of the description", 3);
    start_file("\7ds2");
    EXAMPLE(TALLY, 4095, 3, 4096);
    EXAMPLE(TALLY, 4096, 0, 0, 1, 4096);
    about("example of the description", 5);
    start_file("\1ds2");
    put_block(1536, 0x0F, 3, 10, 7);
    memset(bytes + 1542, 0xFF, STREAM);
    EXAMPLE(DEMUX_QP7, 2048, 5, 504, [ANSWER_SIZE] = 56, [ANSWER_ABSENT] = 54);
    EXAMPLE(TALLY, 2048, 5, 504, [TALLY_SIZE] = 56, [TALLY_ABSENT] = 54);
    bytes[1537] = 4;
    EXAMPLE(DEMUX_QP7, 2048, 4, 506, [ANSWER_SIZE] = 0, [ANSWER_ABSENT] = 2);
    EXAMPLE(TALLY, 2048, 4, 506, [TALLY_SIZE] = 0, [TALLY_ABSENT] = 2);
    about("example of the description", 6);
    put_block(1536, 0x0F, 3, 13, 0);
    EXAMPLE(TALLY, 2048, 0, 0, 1, 1536, 1, 13, 13, 1, 506);
}

/* Recordings in which a carried byte is ours, by byte 0 and count of each block. Their tallies say how many packets are short by that. */
static void carried_bytes(void)
{
    static const struct {
        const char *magic;
        uint8_t blocks[4][2];
        uint64_t announced, shorts, bytes;
        bool complete;
    } files[] = {
        {"\1ds2", {{0x8F, 12}}, 12, 1, 492, false},
        {"\2dss", {{0x0F, 255}, {0x8F, 1}}, 256, 232, 1052, false},
        {"\2dss", {{0x8F, 1}, {0x0F, 1}, {0x8F, 1}}, 3, 1, 122, false},
        {"\1ds2", {{0x8F, 0}, {0x0F, 12}}, 12, 1, 492, false},
        {"\1ds2", {{0x8F, 0}, {0x8F, 0}}, 0, 0, 0, true},
        {"\2dss", {{0x8F, 1}, {0x8F, 1}, {0x8F, 2}}, 4, 3, 162, false},
        {"\2dss", {{0x8F, 0}, {0x0F, 1}, {0x8F, 1}}, 2, 0, 82, true},
        {"\2dss", {{0x0F, 25}, {0x8F, 3}}, 28, 2, 1134, false},
    };
    for (size_t i = 0; i < sizeof files / sizeof *files; i++) {
        size_t start = files[i].magic[0] == 2 ? 1024 : DS2_START, blocks = 0;
        about("carried byte that is ours", i);
        start_file(files[i].magic);
        for (; blocks < 4 && files[i].blocks[blocks][0] != 0; blocks++)
            put_block(start + BLOCK * blocks, files[i].blocks[blocks][0], 3, files[i].blocks[blocks][1], 0);
        size_t len = start + BLOCK * blocks;
        uint64_t n = files[i].announced;
        EXAMPLE(TALLY, len, 0, 0, files[i].magic[3] != 's', start, blocks, n, n, files[i].shorts, files[i].bytes);
        uint64_t complete = ruled[1];
        rule_both_ways((struct file){bytes, len});
        check_number("complete as announced", complete + files[i].complete, ruled[1]);
        run("carried byte that is ours", i, len);
    }
}

/* Example 7: where a DSS block's reads start is seen by how many bytes its one packet has. */
static void dss_starts(void)
{
    static const uint8_t starts[][3] = {{0x8F, 255, 0},  {0x8F, 2, 40},   {0x8F, 3, 40},
                                        {0x8F, 236, 38}, {0x0F, 236, 40}, {0x0F, 235, 42}};
    for (size_t i = 0; i < sizeof starts / sizeof *starts; i++) {
        about("example of the description, 7,", i);
        start_file("\2dss");
        put_block(1024, starts[i][0], starts[i][1], 1, 0);
        /* a swapped one is short whatever bytes it has, since none is carried to it */
        EXAMPLE(TALLY, 1536, 0, 0, 0, 1024, 1, 1, 1, starts[i][0] == 0x8F || starts[i][2] < 42, starts[i][2]);
    }
}

/* Example 4: a swapped read 0..39 with carry 99, put as the second packet of a DS2 recording. */
static void swapped_packet(void)
{
    static const uint8_t begins[] = {1, 99, 3, 0, 5, 2}, ends[] = {39, 36, 0, 38};
    about("example of the description", 4);
    start_file("\1ds2");
    put_block(1536, 0x0F, 3, 2, 0);
    bytes[1542 + 40] = 99;
    for (int i = 0; i < 40; i++)
        bytes[1542 + 42 + i] = (uint8_t)i;
    struct question q = {.export = DEMUX_DS2_SP, .in = lend_copy(&file_area, bytes, 2048), .b_len = 84, .c_len = 2};
    struct answer want = answered(2, 0);
    memcpy(want_out, bytes + 1542, 42);
    want_out[40] = 0;
    for (int i = 6; i < 38; i++)
        want_out[42 + i] = (uint8_t)(i % 2 == 0 ? i + 1 : i - 3);
    memcpy(want_out + 42, begins, sizeof begins);
    memcpy(want_out + 80, ends, sizeof ends);
    want.b = (struct slice){want_out, 84};
    want.c = (struct slice){(uint8_t[]){42, 40}, 2};
    expect(&q, &want);
    q = (struct question){.export = AT_ONCE, .in = q.in, .x = 1, .b_len = PACKET, .c_len = 1};
    struct answer second = model_at_once(&want, 1, PACKET, 1);
    expect(&q, &second);
}

/* Sentences of refusals: whatever the numbers are, each fits with its end; and those of a record, word for word. */
static void sentences(void)
{
    static const struct {
        klov_answer refused;
        const char *sentence;
    } records[] = {
        {{.refusal = 4, .beside = 506, .size = 0, .absent = 2},
         "a record should begin at place 506 of the payload stream: 2 of its first 2 bytes are missing"},
        {{.refusal = 5, .beside = 504, .size = 56, .absent = 54},
         "a record of 56 bytes at place 504 of the payload stream: 54 bytes are missing"},
    };
    char text[KLOV_SENTENCE];
    for (uint64_t n = 0; n < 24; n++) {
        about("sentence of refusal", n);
        klov_answer longest = {.refusal = n, .beside = UINT64_MAX, .size = UINT64_MAX, .absent = UINT64_MAX};
        int length = klov_refusal_sentence(text, sizeof text, &longest);
        check_number("its length", strlen(text), (uint64_t)length);
    }
    for (size_t i = 0; i < sizeof records / sizeof *records; i++) {
        about("sentence of refusal", records[i].refused.refusal);
        klov_refusal_sentence(text, sizeof text, &records[i].refused);
        check_number("whether it is another", 0, strcmp(text, records[i].sentence) != 0);
    }
}

void edges(void)
{
    examples();
    sentences();
    carried_bytes();
    dss_starts();
    swapped_packet();
    few_bytes();
    around_headers();
    silence();
}
