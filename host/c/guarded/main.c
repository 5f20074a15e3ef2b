/* The guarded test: every export of include/klovdrun.h with every lent slice between inaccessible pages, on files by hand, on
 * some thousands of made ones, and on the largest. Ends with one line; exit status 0 if nothing was wrong. Usage: guarded
 * [FILES] */
#include "guarded.h"

#include <inttypes.h>
#include <stdio.h>
#include <stdlib.h>

enum { MADE_FILES = 2400 };

struct area file_area, piece_area, header_area;

_Static_assert(sizeof(klov_answer) == 48 && sizeof(klov_tallied) == 88 && sizeof(klov_entry) == 56,
               "the answers have nothing between their numbers");
_Static_assert(KLOV_INDEX_FRONT == FRONT && KLOV_INDEX_ENTRY == ENTRY, "an index's front and entries");
_Static_assert(sizeof(klov_reader) == KLOV_READER_SIZE, "a reader's size");
_Static_assert(_Alignof(klov_reader) == KLOV_READER_ALIGN, "a reader's alignment");
_Static_assert(offsetof(klov_opened, reader) == sizeof(klov_answer), "the reader stands right after the answer");
_Static_assert(sizeof(klov_opened) == sizeof(klov_answer) + sizeof(klov_reader), "and nothing after it");

/* A made file, whole, and in pieces at every other side, since a reader's calls are the slow ones. Sometimes a reader of any
 * kind gets it: it looks at no magic. */
static void made(uint64_t number)
{
    static uint8_t bytes[MOST_FILE];
    static const uint64_t kinds[] = {0, 2, 3};
    seed_draws(number);
    size_t len = make_file(bytes);
    about("made file", number);
    struct slice file = lend_copy(&file_area, bytes, len);
    uint64_t own = len < 4 || bytes[1] != 'd' || bytes[3] != 's' || (bytes[0] != 2 && bytes[0] != 3) ? 0 : bytes[0];
    whole_calls(file);
    rule_both_ways((struct file){file.at, len});
    if (number % 2 == (uint64_t)side || number % 8 == 0)
        reader_calls((struct file){file.at, len}, draw(4) == 0 ? kinds[draw(3)] : own);
}

static void *memory(size_t size)
{
    void *got = malloc(size);
    if (got == NULL) {
        fprintf(stderr, "guarded: out of memory\n");
        exit(2);
    }
    return got;
}

int main(int argc, char **argv)
{
    uint64_t files = argc > 1 ? strtoull(argv[1], NULL, 10) : MADE_FILES;
    setvbuf(stdout, NULL, _IOLBF, 0);
    prepare_asking();
    file_area = area_to_read(MOST_FILE);
    piece_area = area_to_read(MOST_FILE);
    header_area = area_to_read(PAGE);
    lists.words = memory(1u << 20);
    lists.segments = memory(1u << 20);
    want_out = memory(80u << 20);
    want_counts = memory(4u << 20);
    want_index = memory(8u << 20);
    for (int i = 0; i < 2; i++) {
        side = i == 0 ? AT_END : AT_START;
        edges();
        reader_opens();
        writings();
        indexes();
        for (uint64_t n = 0; n < files; n++)
            made(n);
    }
    side = AT_END;
    largest();
    check_all_seen();
    check_number("the version", KLOV_VERSION, klov_version());
    check_number("where DS2 starts", KLOV_DS2_START, klov_detect_ds2_audio_start(want_out, 0));
    check_number("whether the rule was met and not met", 1, ruled[0] > 0 && ruled[1] > 0);
    check_number("whether a strict end answered for what begins swapped", 1, begun_swapped[0] > 0 && begun_swapped[1] > 0);
    printf("guarded: %" PRIu64 " files complete as announced and %" PRIu64 " not, %" PRIu64 " of these by a swapped beginning alone, in pieces and whole; "
           "%" PRIu64 " calls, %" PRIu64 " checks, %" PRIu64 " wrong\n",
           ruled[1], ruled[0], begun_swapped[0] + begun_swapped[1], calls, checks, wrong);
    return wrong == 0 ? 0 : 1;
}
