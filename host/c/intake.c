/* The intake program: reads a dictation recording, writes its packets, frames or records, and says in one line whether it is complete
 * as announced. It rests on include/klovdrun.h, whose rule for that word it follows, and on POSIX for files. SP recordings are read in
 * pieces by a reader; what a reader does not take is read whole. What it prints and its exit statuses are in `help`. */
#define _POSIX_C_SOURCE 200809L
#include "klovdrun.h"

#include <errno.h>
#include <fcntl.h>
#include <signal.h>
#include <stdarg.h>
#include <stdbool.h>
#include <stdio.h>
#include <stdlib.h>
#include <string.h>
#include <sys/stat.h>
#include <unistd.h>

/* Exit statuses. 2 is kept for a recording that is suspect, and never given. */
enum status { COMPLETE = 0, INCOMPLETE = 1, REFUSED = 3, FAILED = 4, WRONG_USE = 64 };

/* PART: how much is read at a time where the recording is read whole. SOME_ROOM: packets to begin with. TRIES, NAME_ROOM: for a temporary
 * name. CARRIED: the place of the byte that an unswapped read leaves to be carried. */
enum { DEFAULT_PIECE = 4096, PART = 1 << 20, SOME_ROOM = 64, TRIES = 100, NAME_ROOM = 64, CARRIED = 40 };

static const char help[] =
    "usage: intake [--force] [--] RECORDING PACKETS [PIECE]\n"
    "\n"
    "Reads a dictation recording (DSS, DS2), writes its packets, frames or records to the file PACKETS, one after the other, and\n"
    "prints one line. RECORDING - is standard input. PIECE is how many bytes are read at a time, 4096 if it is not given.\n"
    "\n"
    "The line, and the exit status:\n"
    "  complete as announced: 1234 packets                                                  0\n"
    "  incomplete: 13 packets, 0 bytes of a cut block, 1 frames owed, 1 short: 12           1\n"
    "  refused 3 1536: the recording ends inside its header, which has 1536 bytes           3\n"
    "Of a QP7 record that cannot be read, refusals 4 and 5, two more numbers stand before the colon, its size and its absent bytes:\n"
    "  refused 5 504 56 54: a record of 56 bytes at place 504 of the payload stream: 54 bytes are missing\n"
    "Complete as announced: all that the recording's blocks announce is there. A block that was lost or zeroed announces nothing, and\n"
    "nobody can tell. Owed are frames that are announced and had not come when the recording ended. Short are packets and frames of\n"
    "which bytes are missing, in a packet with zeros in their place; their numbers follow, counted from 0. To a swapped packet one byte\n"
    "is carried, from the last unswapped read before it: a packet for which that byte is missing is short, be all its own bytes there.\n"
    "A recording with packets that begins swapped (DS2: by block 0's flag; DSS: by the first announcing block's) has one or more whose\n"
    "carried byte is ours, a zero that nobody recorded: the tally counts them short, and no host calls it complete. Of a refused\n"
    "recording no packets are written.\n"
    "\n"
    "The other exit statuses, with a line on standard error:\n"
    "  4   input or output failed; but for a line that could not be printed, PACKETS is as it was\n"
    "  64  wrong use\n"
    "Status 2 is not given.\n"
    "\n"
    "--force replaces a file PACKETS that is there already, which is else left as it is; of a link the link itself, and not what it\n"
    "leads to. Neither a DSS or DS2 recording, this one or another, nor what is not a file is ever replaced, nor a link to one. A run\n"
    "that is killed may leave its temporary file .intake-PID beside PACKETS.\n";

/* Bytes that grow. `room` is never 0 after the first reserve, so `at` is then a pointer that may be lent. */
struct bytes {
    uint8_t *at;
    size_t len;
    size_t room;
};

struct range {
    uint64_t from;
    uint64_t to;
};

struct input {
    const char *name;
    FILE *from;
    off_t origin;      /* where the recording begins in it; -1: it cannot be gone back in */
    struct bytes held; /* all bytes so far, or the last piece alone */
    bool keeps_all;
    size_t piece; /* where the last piece begins in `held` */
    size_t taken;
};

/* The sizes of the reads, in order, gathered from the recording's bytes, and whether the byte that is carried from read to read came from the
 * file: a count of 40 alone does not say whether a packet is short. */
struct sizes {
    bool dss;
    uint64_t start;
    uint64_t seen;
    uint64_t blocks;
    uint8_t head[3];
    struct bytes runs; /* DSS: of each announcing block its flag and its count */
    size_t run;
    unsigned left; /* DSS: packets left of the run */
    bool swapped;  /* the next read */
    bool sourced;  /* the byte that is carried now came from the file */
};

struct intake {
    const char *packets;
    bool force;
    size_t piece;
    struct input in;
    FILE *out;
    struct sizes sizes;
    const char *unit;
    uint64_t handed; /* packets, frames or records; how many of them are short, which, and the bytes of the file in all of them */
    uint64_t short_count;
    struct bytes shorts;
    uint64_t bytes;
    uint64_t lacking; /* packets whose reads are not complete */
    uint64_t leading; /* packets before the first that has 42 bytes of the file */
    bool complete;
    uint64_t cut;
    uint64_t owed;
    klov_answer refused; /* only what it says of a refusal is looked at */
};

/* What a way of reading comes to. */
enum outcome { GOES_ON, READ, IS_REFUSED, READS_WHOLE };

/* What the way in pieces needs besides. */
struct pieces {
    klov_reader reader;
    bool type_known;
    struct bytes out;
    struct bytes counts;
};

/* The temporary file's name while there is one. */
static char *temporary;

static void remove_temporary(void)
{
    if (temporary != NULL)
        unlink(temporary);
    free(temporary);
    temporary = NULL;
}

static void fail(const char *why, ...)
{
    va_list rest;
    va_start(rest, why);
    fputs("intake: ", stderr);
    vfprintf(stderr, why, rest);
    fputc('\n', stderr);
    va_end(rest);
    remove_temporary();
    exit(FAILED);
}

/* With the system's cause. */
static void fail_at(const char *name)
{
    fail("%s: %s", name, strerror(errno));
}

/* Room for so many bytes more. It at least doubles, so that many small pieces cost little. */
static void reserve(struct bytes *b, size_t more)
{
    if (b->room > 0 && b->room - b->len >= more)
        return;
    size_t room = b->room > SIZE_MAX / 2 ? SIZE_MAX : b->room * 2;
    if (more > SIZE_MAX - b->len)
        fail("out of memory");
    if (room < b->len + more)
        room = b->len + more;
    if (room == 0)
        room = 1;
    uint8_t *at = realloc(b->at, room);
    if (at == NULL)
        fail("out of memory");
    b->at = at;
    b->room = room;
}

/* Room for so many items from the start on, whose number comes from a file and may be large. */
static void make_room(struct bytes *b, uint64_t items, size_t size)
{
    if (items > SIZE_MAX / size)
        fail("out of memory");
    b->len = 0;
    reserve(b, (size_t)items * size);
}

static void append(struct bytes *b, const void *from, size_t len)
{
    reserve(b, len);
    memcpy(b->at + b->len, from, len);
    b->len += len;
}

static void drop(struct bytes *b)
{
    free(b->at);
    *b = (struct bytes){0};
}

/* The recording's bytes. */

static void open_input(struct input *in)
{
    bool standard = strcmp(in->name, "-") == 0;
    if (standard)
        in->name = "standard input";
    in->from = standard ? stdin : fopen(in->name, "rb");
    if (in->from == NULL)
        fail_at(in->name);
    in->origin = ftello(in->from);
    in->keeps_all = true;
}

/* Reads the next piece, which is shorter than asked for only at the recording's end, and says whether there was one. One byte over the
 * limit is enough to be refused, so that no more are read. */
static bool next_piece(struct input *in, size_t size)
{
    size_t left = (size_t)KLOV_LIMIT + 1 - in->taken;
    if (size > left)
        size = left;
    if (!in->keeps_all)
        in->held.len = 0;
    in->piece = in->held.len;
    reserve(&in->held, size);
    size_t got = fread(in->held.at + in->held.len, 1, size, in->from);
    if (ferror(in->from))
        fail_at(in->name);
    in->held.len += got;
    in->taken += got;
    return got > 0;
}

/* Holds the whole recording: goes on where all bytes so far are held, else goes back. */
static void hold_all(struct input *in)
{
    if (!in->keeps_all) {
        if (fseeko(in->from, in->origin, SEEK_SET) != 0)
            fail_at(in->name);
        in->keeps_all = true;
        in->held.len = 0;
        in->taken = 0;
    }
    while (next_piece(in, PART))
        ;
}

/* The sizes of the reads. */

static void note_block(struct sizes *s)
{
    uint8_t flag = s->head[0] >> 7;
    if (s->dss && s->head[2] > 0)
        append(&s->runs, (uint8_t[2]){flag, s->head[2]}, 2);
    if (!s->dss && s->blocks == 0)
        s->swapped = flag != 0;
    s->blocks++;
}

/* Takes bytes in any cut. A block counts once its last byte is there. */
static void sizes_take(struct sizes *s, const uint8_t *bytes, size_t len)
{
    size_t i = 0;
    while (i < len) {
        uint64_t place = s->seen + i;
        uint64_t inside = place < s->start ? 0 : (place - s->start) % KLOV_BLOCK;
        uint64_t step = 1;
        if (place < s->start)
            step = s->start - place;
        else if (inside < sizeof s->head)
            s->head[inside] = bytes[i];
        else if (inside < KLOV_BLOCK - 1)
            step = KLOV_BLOCK - 1 - inside;
        else
            note_block(s);
        i = step < len - i ? i + (size_t)step : len;
    }
    s->seen += len;
}

/* The size of the next read. In DSS every announcing block begins with its own flag. */
static unsigned next_size(struct sizes *s)
{
    if (s->dss && s->left == 0) {
        if (s->run == s->runs.len)
            fail("more packets were handed out than are announced");
        s->swapped = s->runs.at[s->run] != 0;
        s->left = s->runs.at[s->run + 1];
        s->run += 2;
    }
    if (s->dss)
        s->left--;
    unsigned size = s->swapped ? 40 : KLOV_PACKET;
    s->swapped = !s->swapped;
    return size;
}

/* Whether the next packet is whole, by the size of its read and its count. It is asked of every packet in order, since in DSS too the carried
 * byte goes on from block to block. */
static bool next_is_whole(struct sizes *s, unsigned size, uint8_t count)
{
    bool swapped = size < KLOV_PACKET;
    bool whole = count == size && (s->sourced || !swapped);
    if (!swapped)
        s->sourced = count > CARRIED;
    return whole;
}

/* The packets file, which has another name until it is whole. */

/* Whether a file begins as recordings do: of a pipe it cannot be told whether it brings this one. Fails if it cannot be read. */
static bool is_recording(const char *name)
{
    uint8_t first[4] = {0};
    FILE *file = fopen(name, "rb");
    if (file == NULL)
        fail_at(name);
    size_t got = fread(first, 1, sizeof first, file);
    if (ferror(file))
        fail_at(name);
    fclose(file);
    return klov_tally(first, got).refusal != KLOV_REFUSED_MAGIC;
}

/* Fails if PACKETS must not be written: asked before the recording is read, and again before the file is put in place. */
static void look_at_output(const struct intake *it)
{
    struct stat packets, recording, led_to;
    if (lstat(it->packets, &packets) != 0) {
        if (errno != ENOENT)
            fail_at(it->packets);
        return;
    }
    if (fstat(fileno(it->in.from), &recording) != 0)
        fail_at(it->in.name);
    bool leads = stat(it->packets, &led_to) == 0; /* else it is a link to nothing */
    if (leads && led_to.st_dev == recording.st_dev && led_to.st_ino == recording.st_ino)
        fail("%s: it is the recording itself", it->packets);
    if (leads && !S_ISREG(led_to.st_mode))
        fail("%s: it is not a file", it->packets);
    if (leads && is_recording(it->packets))
        fail("%s: it is a recording", it->packets);
    if (!it->force)
        fail("%s: it is there already; --force replaces it", it->packets);
}

/* The folder of PACKETS with its slash, and room for a name behind it. */
static char *folder_of(const char *packets, size_t *len)
{
    const char *slash = strrchr(packets, '/');
    const char *folder = slash == NULL ? "./" : packets;
    *len = slash == NULL ? 2 : (size_t)(slash - packets) + 1;
    char *made = malloc(*len + NAME_ROOM);
    if (made == NULL)
        fail("out of memory");
    memcpy(made, folder, *len);
    made[*len] = '\0';
    return made;
}

/* Makes a file of a name that is not there yet, in the folder of PACKETS. */
static void open_output(struct intake *it)
{
    size_t folder;
    char *name = folder_of(it->packets, &folder);
    int file = -1;
    for (int n = 0; n < TRIES && file < 0; n++) {
        int len = snprintf(name + folder, NAME_ROOM, ".intake-%ld", (long)getpid());
        if (n > 0)
            snprintf(name + folder + len, NAME_ROOM - (size_t)len, "-%d", n);
        file = open(name, O_WRONLY | O_CREAT | O_EXCL, 0666);
        if (file < 0 && errno != EEXIST)
            break;
    }
    if (file < 0)
        fail_at(it->packets);
    temporary = name;
    it->out = fdopen(file, "wb");
    if (it->out == NULL)
        fail_at(it->packets);
}

/* Throws away what was written and counted, with what was known of the reads. */
static void start_anew(struct intake *it)
{
    if (fflush(it->out) != 0 || fseeko(it->out, 0, SEEK_SET) != 0 || ftruncate(fileno(it->out), 0) != 0)
        fail_at(it->packets);
    drop(&it->sizes.runs);
    it->sizes = (struct sizes){0};
    it->handed = 0;
    it->bytes = 0;
    it->short_count = 0;
    it->shorts.len = 0;
    it->lacking = 0;
    it->leading = 0;
}

/* Removes the empty file that has taken the name of PACKETS, if it is still the one there and still empty. */
static void give_up(const char *packets, const struct stat *taken)
{
    struct stat there;
    if (lstat(packets, &there) == 0 && there.st_dev == taken->st_dev && there.st_ino == taken->st_ino && there.st_size == 0)
        unlink(packets);
}

/* `taken`: the empty file that has taken the name, NULL if none has. */
static void rename_output(const struct intake *it, const struct stat *taken)
{
    if (rename(temporary, it->packets) != 0) {
        int cause = errno;
        if (taken != NULL)
            give_up(it->packets, taken);
        errno = cause;
        fail_at(it->packets);
    }
    free(temporary);
    temporary = NULL;
}

/* A file that was made meanwhile is not overwritten: a link is refused then, as a renaming is not. Where the file system has no links the
 * name is taken first, by an empty file, which is closed before the renaming: some file systems rename over no open one. */
static void link_output(const struct intake *it)
{
    if (link(temporary, it->packets) == 0) {
        remove_temporary();
        return;
    }
    int taken = errno == EEXIST ? -1 : open(it->packets, O_WRONLY | O_CREAT | O_EXCL, 0666);
    if (taken < 0)
        fail_at(it->packets);
    struct stat made;
    bool known = fstat(taken, &made) == 0;
    close(taken);
    rename_output(it, known ? &made : NULL);
}

/* Puts the file in place, and its name on the disk too: a folder that cannot be opened for that is left to the system. */
static void put_in_place(struct intake *it)
{
    size_t len;
    if (fflush(it->out) != 0 || fsync(fileno(it->out)) != 0 || fclose(it->out) != 0)
        fail_at(it->packets);
    look_at_output(it);
    if (it->force)
        rename_output(it, NULL);
    else
        link_output(it);
    char *name = folder_of(it->packets, &len);
    int folder = open(name, O_RDONLY);
    if (folder >= 0) {
        (void)fsync(folder);
        close(folder);
    }
    free(name);
}

static void note_short(struct intake *it)
{
    struct range *last = it->shorts.len > 0 ? (struct range *)(it->shorts.at + it->shorts.len) - 1 : NULL;
    it->short_count++;
    if (last != NULL && last->to + 1 == it->handed)
        last->to = it->handed;
    else
        append(&it->shorts, &(struct range){it->handed, it->handed}, sizeof(struct range));
}

/* Writes a packet, frame or record, and counts it: `size` bytes, of which so many are the file's. */
static void put(struct intake *it, const uint8_t *bytes, size_t size, uint64_t of_file, bool whole)
{
    if (fwrite(bytes, 1, size, it->out) != size)
        fail_at(it->packets);
    if (!whole)
        note_short(it);
    it->bytes += of_file;
    it->handed++;
}

static void put_packets(struct intake *it, const uint8_t *out, const uint8_t *counts, uint64_t packets)
{
    for (uint64_t i = 0; i < packets; i++) {
        unsigned size = next_size(&it->sizes);
        if (counts[i] < size)
            it->lacking++;
        if (it->leading == it->handed && counts[i] < KLOV_PACKET)
            it->leading++;
        put(it, out + KLOV_PACKET * i, KLOV_PACKET, counts[i], next_is_whole(&it->sizes, size, counts[i]));
    }
}

static enum outcome refused(struct intake *it, klov_answer a)
{
    it->refused = a;
    return IS_REFUSED;
}

/* What was counted here against the archive's tally of the whole file. */

static void hold(const char *what, uint64_t counted, uint64_t told)
{
    if (counted != told)
        fail("%s: %llu were counted here, and the archive tells %llu", what, (unsigned long long)counted, (unsigned long long)told);
}

static void hold_to_tally(const struct intake *it, const klov_tallied *t)
{
    hold(it->unit, it->handed, t->handed);
    hold("short ones", it->short_count, t->short_count);
    hold("bytes of the file", it->bytes, t->bytes);
}

/* An incomplete recording that was read in pieces is tallied whole too, if its bytes are held or can be gone back for. */
static void tally_again(struct intake *it)
{
    if (!it->in.keeps_all && it->in.origin < 0)
        return;
    hold_all(&it->in);
    klov_tallied t = klov_tally(it->in.held.at, it->in.held.len);
    if (t.refusal != KLOV_ANSWERED)
        fail("the tally refuses by %llu what a reader has taken", (unsigned long long)t.refusal);
    hold_to_tally(it, &t);
}

/* The way in pieces. */

/* A reader of DS2 looks at no type. Once a frame is announced the tally of the bytes so far tells it. */
static bool turns_out_sp(struct input *in)
{
    klov_tallied t = klov_tally(in->held.at, in->held.len);
    if (t.refusal != KLOV_ANSWERED || t.kind != KLOV_DS2_SP)
        return false;
    /* a piece may still be refused by 7, and then all bytes are asked for again */
    in->keeps_all = in->origin < 0;
    return true;
}

static void room_for(struct pieces *p, uint64_t packets)
{
    make_room(&p->out, packets, KLOV_PACKET);
    make_room(&p->counts, packets, 1);
}

static klov_answer give(struct pieces *p, const uint8_t *piece, size_t len)
{
    return klov_piece(&p->reader, piece, len, p->out.at, p->out.room, p->counts.at, p->counts.room);
}

/* Gives the piece to the reader, a second time where the first has said how much room it needs, and writes what comes. */
static enum outcome take_piece(struct intake *it, struct pieces *p)
{
    const uint8_t *piece = it->in.held.at + it->in.piece;
    size_t len = it->in.held.len - it->in.piece;
    klov_answer a = give(p, piece, len);
    if (a.refusal == KLOV_REFUSED_ROOM) {
        room_for(p, a.beside);
        a = give(p, piece, len);
    }
    if (a.refusal == KLOV_REFUSED_HOLD)
        return READS_WHOLE;
    if (a.refusal != KLOV_ANSWERED)
        return refused(it, a);
    if (!p->type_known && a.first + a.second > 0) {
        if (!turns_out_sp(&it->in))
            return READS_WHOLE;
        p->type_known = true;
    }
    sizes_take(&it->sizes, piece, len);
    put_packets(it, p->out.at, p->counts.at, a.first);
    return GOES_ON;
}

/* The strict end has answered: every read is complete, and the recording is complete if it does not begin swapped. Short are then the packets
 * before the first unswapped one, which have counts of 40. */
static enum outcome end_strictly(struct intake *it)
{
    hold("short ones", it->short_count, it->leading);
    it->complete = it->leading == 0;
    if (!it->complete)
        tally_again(it);
    return READ;
}

/* The strict end says whether all that is announced is there, or what is missing; then the lenient end is asked until nothing is owed. */
static enum outcome end_pieces(struct intake *it, struct pieces *p)
{
    klov_answer a = klov_end(&p->reader, KLOV_STRICT, p->out.at, p->out.room, p->counts.at, p->counts.room);
    if (a.refusal == KLOV_ANSWERED)
        return end_strictly(it);
    if (a.refusal != KLOV_REFUSED_CUT_BLOCK && a.refusal != KLOV_REFUSED_OWING)
        return refused(it, a);
    it->cut = a.refusal == KLOV_REFUSED_CUT_BLOCK ? a.beside : 0;
    it->owed = a.second;
    do {
        a = klov_end(&p->reader, KLOV_LENIENT, p->out.at, p->out.room, p->counts.at, p->counts.room);
        if (a.refusal != KLOV_ANSWERED)
            return refused(it, a);
        put_packets(it, p->out.at, p->counts.at, a.first);
    } while (a.second > 0);
    tally_again(it);
    return READ;
}

static enum outcome feed(struct intake *it, struct pieces *p)
{
    while (next_piece(&it->in, it->piece) && it->in.held.len < 4)
        ;
    uint64_t kind = klov_reader_kind(it->in.held.at, it->in.held.len);
    if (kind == KLOV_READ_WHOLE)
        return READS_WHOLE;
    klov_opened opened = klov_open(kind);
    if (opened.answer.refusal != KLOV_ANSWERED)
        return refused(it, opened.answer);
    p->reader = opened.reader;
    it->sizes.dss = kind != KLOV_READ_DS2;
    it->sizes.start = it->sizes.dss ? KLOV_DSS_START(kind) : KLOV_DS2_START;
    /* a reader takes every DSS recording to its end, so that none of its bytes are asked for again */
    p->type_known = it->sizes.dss;
    it->in.keeps_all = !it->sizes.dss;
    it->in.piece = 0;
    enum outcome outcome;
    do
        outcome = take_piece(it, p);
    while (outcome == GOES_ON && next_piece(&it->in, it->piece));
    return outcome == GOES_ON ? end_pieces(it, p) : outcome;
}

static enum outcome read_in_pieces(struct intake *it)
{
    struct pieces p = {0};
    /* The lenient end hands out as many packets as there is room for, so there is always room for some. */
    room_for(&p, SOME_ROOM);
    enum outcome outcome = feed(it, &p);
    drop(&p.out);
    drop(&p.counts);
    return outcome;
}

/* The whole way. */

static enum outcome whole_sp(struct intake *it, const struct bytes *file, const klov_tallied *t)
{
    struct bytes out = {0};
    struct bytes counts = {0};
    make_room(&out, t->handed, KLOV_PACKET);
    make_room(&counts, t->handed, 1);
    it->sizes.start = t->start;
    sizes_take(&it->sizes, file->at, file->len);
    klov_answer a = klov_demux_ds2_sp(file->at, file->len, out.at, out.room, counts.at, counts.room);
    if (a.refusal == KLOV_ANSWERED)
        put_packets(it, out.at, counts.at, a.first);
    drop(&out);
    drop(&counts);
    return a.refusal == KLOV_ANSWERED ? READ : refused(it, a);
}

/* Bytes of the payload stream: in the file where they lie together, else in the scratch. */
static const uint8_t *look(const struct bytes *file, uint64_t place, uint64_t size, uint8_t *scratch)
{
    klov_answer a = klov_fetch(file->at, file->len, (size_t)place, (size_t)size, scratch, KLOV_FRAME);
    if (a.refusal != KLOV_ANSWERED)
        fail("a frame was refused by %llu", (unsigned long long)a.refusal);
    return a.first == 0 ? file->at + a.second : scratch;
}

static void put_frames(struct intake *it, const struct bytes *file, const uint32_t *segment)
{
    uint8_t scratch[KLOV_FRAME] = {0};
    for (uint32_t k = 0; k < segment[2]; k++) {
        klov_answer frame = klov_frame(segment[0], segment[1], k);
        if (frame.second == 0)
            break;
        put(it, look(file, frame.first, frame.second, scratch), (size_t)frame.second, frame.second, frame.second == KLOV_FRAME);
    }
}

static enum outcome whole_qp(struct intake *it, const struct bytes *file)
{
    struct bytes table = {0};
    it->unit = "frames";
    /* With no room the call says how many segments there are. */
    make_room(&table, 1, sizeof(uint32_t));
    klov_answer a = klov_demux_ds2_qp(file->at, file->len, (uint32_t *)table.at, 0);
    make_room(&table, a.beside, KLOV_QP_WORDS * sizeof(uint32_t));
    a = klov_demux_ds2_qp(file->at, file->len, (uint32_t *)table.at, table.room / sizeof(uint32_t));
    for (uint64_t i = 0; i < a.first; i++)
        put_frames(it, file, (uint32_t *)table.at + KLOV_QP_WORDS * i);
    drop(&table);
    return a.refusal == KLOV_ANSWERED ? READ : refused(it, a);
}

static void put_record(struct intake *it, const struct bytes *file, uint32_t place)
{
    uint8_t scratch[KLOV_FRAME] = {0};
    uint64_t size = KLOV_RECORD(look(file, place, 2, scratch)[1]);
    put(it, look(file, place, size, scratch), (size_t)size, size, true);
}

static enum outcome whole_qp7(struct intake *it, const struct bytes *file, const klov_tallied *t)
{
    struct bytes records = {0};
    struct bytes segments = {0};
    it->unit = "records";
    make_room(&records, t->handed, sizeof(uint32_t));
    /* A segment is closed by a silent block or by the end, so there are not more of them than blocks. */
    make_room(&segments, t->blocks, KLOV_QP7_WORDS * sizeof(uint32_t));
    klov_answer a = klov_demux_ds2_qp7(file->at, file->len, (uint32_t *)records.at, records.room / sizeof(uint32_t),
                                       (uint32_t *)segments.at, segments.room / sizeof(uint32_t));
    for (uint64_t i = 0; i < a.first; i++)
        put_record(it, file, ((uint32_t *)records.at)[i]);
    drop(&records);
    drop(&segments);
    return a.refusal == KLOV_ANSWERED ? READ : refused(it, a);
}

static enum outcome whole_kind(struct intake *it, const struct bytes *file, const klov_tallied *t)
{
    if (t->kind == KLOV_DS2_SP)
        return whole_sp(it, file, t);
    if (t->kind == KLOV_DS2_QP)
        return whole_qp(it, file);
    if (t->kind != KLOV_DS2_QP7) /* a reader takes every DSS recording, and gives no 7 */
        fail("%s: it should have been read in pieces", it->in.name);
    return whole_qp7(it, file, t);
}

static enum outcome read_whole(struct intake *it)
{
    const struct bytes *file = &it->in.held;
    start_anew(it);
    hold_all(&it->in);
    klov_tallied t = klov_tally(file->at, file->len);
    if (t.refusal != KLOV_ANSWERED)
        return refused(it, klov_tally_refusal(&t));
    enum outcome outcome = whole_kind(it, file, &t);
    if (outcome != READ)
        return outcome;
    hold_to_tally(it, &t);
    it->complete = klov_complete_as_announced(&t, file->len);
    it->cut = file->len - (t.start + KLOV_BLOCK * t.blocks);
    /* SP packets that are owed are handed out all the same; one that is short by its carried byte alone is not owed */
    it->owed = t.kind == KLOV_DS2_SP ? it->lacking : t.announced - t.handed;
    return outcome;
}

/* What is printed. */

static void print_shorts(const struct intake *it)
{
    const struct range *ranges = (const struct range *)it->shorts.at;
    printf("%llu short", (unsigned long long)it->short_count);
    for (size_t i = 0; i < it->shorts.len / sizeof(struct range); i++) {
        printf(i == 0 ? ": %llu" : " %llu", (unsigned long long)ranges[i].from);
        if (ranges[i].to > ranges[i].from)
            printf("-%llu", (unsigned long long)ranges[i].to);
    }
}

/* The refusal's number and the number beside it; of a record that cannot be read its size and the bytes that are absent; a sentence. */
static void print_refusal(const klov_answer *a)
{
    char sentence[KLOV_SENTENCE];
    klov_refusal_sentence(sentence, sizeof sentence, a);
    printf("refused %llu %llu", (unsigned long long)a->refusal, (unsigned long long)a->beside);
    if (a->refusal == KLOV_REFUSED_NO_RECORD || a->refusal == KLOV_REFUSED_CUT_RECORD)
        printf(" %llu %llu", (unsigned long long)a->size, (unsigned long long)a->absent);
    printf(": %s", sentence);
}

static enum status print_line(const struct intake *it, enum outcome outcome)
{
    unsigned long long handed = it->handed;
    if (outcome == IS_REFUSED) {
        print_refusal(&it->refused);
    } else if (it->complete) {
        printf("complete as announced: %llu %s", handed, it->unit);
    } else {
        printf("incomplete: %llu %s, %llu bytes of a cut block, %llu frames owed, ", handed, it->unit, (unsigned long long)it->cut,
               (unsigned long long)it->owed);
        print_shorts(it);
    }
    printf("\n");
    return outcome == IS_REFUSED ? REFUSED : it->complete ? COMPLETE : INCOMPLETE;
}

static void flush_line(void)
{
    if (fflush(stdout) != 0 || ferror(stdout))
        fail_at("standard output");
}

/* The command line. */

static void misused(const char *what, const char *argument)
{
    fprintf(stderr, "intake: %s%s; --help tells more\n", what, argument);
    exit(WRONG_USE);
}

/* A decimal number from 1 on. A piece over the limit is refused however long it is, so a longer one is never read. */
static size_t piece_size(const char *digits)
{
    uint64_t n = 0;
    if (*digits == '\0')
        return 0;
    for (; *digits != '\0'; digits++) {
        if (*digits < '0' || *digits > '9')
            return 0;
        n = n * 10 + (uint64_t)(*digits - '0');
        if (n > KLOV_LIMIT)
            n = (uint64_t)KLOV_LIMIT + 1;
    }
    return (size_t)n;
}

static void option(struct intake *it, const char *argument)
{
    if (strcmp(argument, "--help") == 0) {
        fputs(help, stdout);
        flush_line();
        exit(COMPLETE);
    }
    if (strcmp(argument, "--force") != 0)
        misused("there is no option ", argument);
    it->force = true;
}

static void command_line(struct intake *it, int argc, char **argv)
{
    const char *names[3] = {NULL, NULL, NULL};
    int given = 0;
    bool options = true;
    for (int i = 1; i < argc; i++) {
        if (options && strcmp(argv[i], "--") == 0)
            options = false;
        else if (options && argv[i][0] == '-' && argv[i][1] != '\0')
            option(it, argv[i]);
        else if (given++ < 3)
            names[given - 1] = argv[i];
    }
    if (given < 2 || given > 3)
        misused("it takes RECORDING PACKETS [PIECE]", "");
    it->in.name = names[0];
    it->packets = names[1];
    it->piece = given == 3 ? piece_size(names[2]) : DEFAULT_PIECE;
    if (it->piece == 0)
        misused("PIECE is a number of bytes from 1 on, and not ", names[2]);
}

/* As Rust's library has it: a standard stream that is closed brings nothing and takes anything, and no file gets its number. */
static void open_streams(void)
{
    for (int stream = 0; stream <= 2; stream++)
        if (fcntl(stream, F_GETFD) < 0 && open("/dev/null", O_RDWR) < 0)
            exit(FAILED);
}

int main(int argc, char **argv)
{
    struct intake it = {.unit = "packets"};
    open_streams();
    signal(SIGPIPE, SIG_IGN); /* so that a line nobody reads is a failure like any other */
    command_line(&it, argc, argv);
    if (klov_version() != KLOV_VERSION)
        fail("the archive has version %llu, and this program is for version %u", (unsigned long long)klov_version(), KLOV_VERSION);
    open_input(&it.in);
    look_at_output(&it);
    open_output(&it);
    enum outcome outcome = read_in_pieces(&it);
    if (outcome == READS_WHOLE)
        outcome = read_whole(&it);
    if (outcome == READ)
        put_in_place(&it);
    remove_temporary();
    enum status status = print_line(&it, outcome);
    flush_line();
    drop(&it.in.held);
    drop(&it.sizes.runs);
    drop(&it.shorts);
    return status;
}
