/* Memory between inaccessible pages. What is lent to read is mapped twice, once to fill it and once read-only, so that no call
 * can write to it; what is lent to write is filled with a canary. Rests on mmap. */
#define _GNU_SOURCE
#include "guarded.h"

#include <stdio.h>
#include <stdlib.h>
#include <string.h>
#include <sys/mman.h>
#include <unistd.h>

/* So many bytes beside a lent slice, on its open side, have to stay as they are too. */
enum { BESIDE = 256 };

enum side side;

static void *mapped(void *at, size_t size, int protection, int flags, int file)
{
    void *got = mmap(at, size, protection, flags, file, 0);
    if (got == MAP_FAILED) {
        perror("guarded: mmap");
        exit(2);
    }
    return got;
}

/* Inaccessible pages with one more on each side. */
struct area area_reserved(size_t size)
{
    size = (size + PAGE - 1) / PAGE * PAGE;
    uint8_t *all = mapped(NULL, size + 2 * PAGE, PROT_NONE, MAP_PRIVATE | MAP_ANONYMOUS | MAP_NORESERVE, -1);
    return (struct area){.view = all + PAGE, .fill = all + PAGE, .size = size};
}

/* Makes pages of a reserved area accessible, and all others not. */
void area_allow(const struct area *a, size_t from, size_t to, bool write)
{
    if (mprotect(a->view, a->size, PROT_NONE) != 0
        || (to > from && mprotect(a->view + from, to - from, write ? PROT_READ | PROT_WRITE : PROT_READ) != 0)) {
        perror("guarded: mprotect");
        exit(2);
    }
}

struct area area_to_write(size_t size)
{
    struct area a = area_reserved(size);
    area_allow(&a, 0, a.size, true);
    return a;
}

struct area area_to_read(size_t size)
{
    struct area a = area_reserved(size);
    int file = memfd_create("guarded", 0);
    if (file < 0 || ftruncate(file, (off_t)a.size) != 0) {
        perror("guarded: memfd_create");
        exit(2);
    }
    mapped(a.view, a.size, PROT_READ, MAP_SHARED | MAP_FIXED, file);
    a.fill = mapped(NULL, a.size, PROT_READ | PROT_WRITE, MAP_SHARED, file);
    close(file);
    return a;
}

static size_t offset(const struct area *a, size_t len)
{
    if (len > a->size) {
        fprintf(stderr, "guarded: %zu bytes do not fit in an area of %zu\n", len, a->size);
        exit(2);
    }
    return side == AT_END ? a->size - len : 0;
}

struct slice lend_copy(const struct area *a, const void *bytes, size_t len)
{
    size_t from = offset(a, len);
    if (len > 0)
        memcpy(a->fill + from, bytes, len);
    return (struct slice){a->view + from, len};
}

/* The two sides have contrary canaries, so that no value that is written can pass for both. */
static uint8_t canary(size_t i)
{
    uint8_t byte = (uint8_t)(i * 37 + 11);
    return side == AT_END ? byte : (uint8_t)~byte;
}

static size_t beside(const struct area *a, size_t len)
{
    return a->size - len < BESIDE ? a->size - len : BESIDE;
}

struct slice lend_canary(const struct area *a, size_t len)
{
    size_t from = offset(a, len);
    size_t more = beside(a, len);
    uint8_t *at = a->fill + from;
    uint8_t *begin = side == AT_END ? at - more : at;
    for (size_t i = 0; i < len + more; i++)
        begin[i] = canary(i);
    return (struct slice){at, len};
}

/* The slice begins with these bytes, and the rest of it, and what is beside it, has the canary. */
void check_canary(const char *what, const struct area *a, struct slice s, const void *want, size_t want_len)
{
    size_t more = beside(a, s.len);
    size_t before = side == AT_END ? more : 0;
    const uint8_t *begin = s.at - before;
    checks++;
    if (want_len > s.len)
        complain(what, want_len, s.len);
    else if (want_len > 0 && memcmp(s.at, want, want_len) != 0)
        complain(what, want_len, 0);
    for (size_t i = 0; i < s.len + more; i++) {
        if (i == before && want_len > 0)
            i += want_len;
        if (i < s.len + more && begin[i] != canary(i)) {
            complain(what, canary(i), begin[i]);
            return;
        }
    }
}
