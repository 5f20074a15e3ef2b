/* The export that writes a file of packets: headers, packets and rooms at every edge, each slice lent by itself; and what was
 * written, read again. Rests on the model. */
#include "guarded.h"

#include <string.h>

enum { MOST = 2800 };

static uint8_t header[PAGE], packets[PACKET * MOST + PACKET];

/* Any bytes, but for the magic. */
static void make_header(const char *magic)
{
    for (size_t i = 0; i < sizeof header; i++)
        header[i] = (uint8_t)draw(256);
    memcpy(header, magic, 4);
}

/* Any bytes, but for byte 40 of each. */
static void make_packets(void)
{
    for (size_t i = 0; i < sizeof packets; i++)
        packets[i] = i % PACKET == 40 ? 0 : (uint8_t)draw(256);
}

static struct answer ask(size_t header_len, size_t packets_len, size_t room)
{
    struct answer want = model_write((struct file){header, header_len}, (struct file){packets, packets_len}, room, want_out);
    struct question q = {.export = WRITE, .in = lend_copy(&header_area, header, header_len), .b_len = room,
                         .also = lend_copy(&piece_area, packets, packets_len)};
    expect(&q, &want);
    return want;
}

/* The file in `want_out` gives its packets again, each with its full count, and is complete as announced. */
static void read_again(uint64_t n, size_t size)
{
    static uint8_t full[MOST];
    uint64_t bytes = 0;
    for (uint64_t k = 0; k < n; k++) {
        full[k] = k % 2 == 0 ? 42 : 40;
        bytes += full[k];
    }
    struct slice file = lend_copy(&file_area, want_out, size);
    struct answer want = answered(n, 0);
    want.b = (struct slice){packets, PACKET * n};
    want.c = (struct slice){full, n};
    expect(&(struct question){.export = DEMUX_DS2_SP, .in = file, .b_len = PACKET * n, .c_len = n}, &want);
    want = (struct answer){.numbers = {0, 0, KLOV_DS2_SP, DS2_START, (size - DS2_START) / BLOCK, n, n, 0, bytes}};
    expect(&(struct question){.export = TALLY, .in = file}, &want);
    uint64_t complete = ruled[1];
    rule_both_ways((struct file){file.at, file.len});
    check_number("complete as announced", complete + 1, ruled[1]);
}

/* So many packets, with rooms around all that matters. */
static void list(uint64_t n)
{
    about("packets written", n);
    size_t size = ask(DS2_START, PACKET * n, 0).numbers[1];
    const size_t rooms[] = {1,        DS2_START - 1, DS2_START, DS2_START + 1, size - BLOCK, size - 2,
                            size - 1, size + 1,      size + 2,  size + 700,    size};
    for (size_t i = 0; i < sizeof rooms / sizeof *rooms; i++)
        ask(DS2_START, PACKET * n, rooms[i]);
    read_again(n, size);
}

static void lists_of_packets(void)
{
    static const uint64_t some[] = {49, 50, 99, 123, 505, 506, 507, 518, 519, MOST};
    for (uint64_t n = 0; n <= 40; n++)
        list(n);
    for (size_t i = 0; i < sizeof some / sizeof *some; i++)
        list(some[i]);
    for (int i = 0; i < 10; i++)
        list(draw(600));
}

/* Every length up to some packets, and around many. */
static void cut_packets(void)
{
    for (size_t len = 0; len <= 4 * PACKET + 1; len++) {
        about("bytes of packets", len);
        ask(DS2_START, len, BLOCK * 5);
    }
    for (uint64_t n = 12; n < MOST; n += 1 + draw(500))
        for (size_t len = PACKET * n - 2; len <= PACKET * n + 2; len++) {
            about("bytes of packets", len);
            ask(DS2_START, len, draw(2) * MOST_FILE);
        }
}

/* One packet whose byte 40 is not 0, another after it, and a cut one at the end. */
static void set_bytes(void)
{
    for (uint64_t n = 1; n <= 15; n++)
        for (uint64_t k = 0; k < n; k++) {
            about("packet with byte 40 set", k);
            packets[PACKET * k + 40] = (uint8_t)(1 + draw(255));
            ask(DS2_START, PACKET * n, MOST_FILE);
            ask(DS2_START, PACKET * n + draw(PACKET), 0);
            uint64_t other = k + draw(n - k);
            packets[PACKET * other + 40] = 0x80;
            ask(DS2_START, PACKET * n - draw(2), MOST_FILE);
            packets[PACKET * k + 40] = packets[PACKET * other + 40] = 0;
        }
}

/* Every length around that of a header, every magic; with packets that are refused too, and with none. */
static void headers(void)
{
    static const char magics[][5] = {"\1ds2", "\3ds2", "\7ds2", "\2ds2", "\0ds2", "\2dss", "\3dss", "\3enc", "\1dsx", "\1dx2", "\1xs2"};
    static const size_t lengths[] = {0, 1, 2, 3, 4, 5, 512, 1024, 1534, 1535, 1536, 1537, 1538, 2048, PAGE};
    for (size_t m = 0; m < sizeof magics / sizeof *magics; m++)
        for (size_t i = 0; i < sizeof lengths / sizeof *lengths; i++) {
            about("header of another length or magic", 100 * m + i);
            make_header(magics[m]);
            ask(lengths[i], PACKET * 13, BLOCK * 5);
            ask(lengths[i], PACKET * 13 - 1, 0);
            ask(lengths[i], 0, DS2_START - draw(2));
        }
}

void writings(void)
{
    seed_draws(42);
    make_header("\1ds2");
    make_packets();
    lists_of_packets();
    make_header("\3ds2");
    cut_packets();
    set_bytes();
    headers();
}
