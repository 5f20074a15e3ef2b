/* klovdrun: a demuxer for dictation recordings, DSS and DS2, and a writer of DS2 SP files, over the archive libklovdrun.a (x86-64, System V),
 * for C99 and C++.
 * docs/FORMAT.md describes the recordings; host/c/intake.c is a whole program over this header.
 *
 * LENT MEMORY. A slice is a pointer and a length in elements. No call keeps a pointer, allocates, or touches anything but what is lent to it;
 * a slice that is not const is written only as far as its call says, and a refused call changes no lent byte and no reader. A reader's
 * calls take up to some 27 KiB of stack, the others under 1 KiB.
 *
 * Forbidden, and not looked for:
 * - a null pointer, even with length 0: point at anything, or one past the end of an array;
 * - a pointer that its length does not hold for: so many elements must be there, for a call to read, or to read and write;
 * - a misaligned table: a table of uint32_t is aligned by 4, a klov_reader by KLOV_READER_ALIGN;
 * - overlap: no two slices of one call may share a byte if either may be written, and none may share one with the reader;
 * - a reader that is not from klov_open or an earlier call: one that was never opened, that was written to, or that another thread is
 *   advancing. A reader may be copied and moved as a whole; each copy then goes its own way.
 * Bytes, lengths and numbers are otherwise free: every input has an answer or a refusal.
 *
 * PACKETS. A call that hands out packets takes `out` and `counts`. Packet i of its answer is the KLOV_PACKET bytes from out[KLOV_PACKET * i]
 * on, and counts[i] says how many bytes of its read came from the recording. A read has 42 bytes, or 40 if it is swapped; byte 1 of a swapped
 * packet is not of its read but carried to it, byte 40 of the last unswapped read before it, in DSS be it an earlier block's. A packet is whole
 * if all bytes of its read came from the recording and, where it is swapped, its carried byte too; before any unswapped read that one is ours.
 * Else it is short: what is missing in it are zeros that nobody recorded. Which reads are swapped the block headers say, so that a count of 40
 * alone does not tell; nor does a full count of a swapped packet say that it is whole. Every call starts again at out[0] and counts[0], a
 * reader's too, and the one packet of klov_ds2_sp_packet and klov_dss_packet stands there whatever its number is; what lies past the packets handed
 * out is as it was. Room is the smaller of out_len / KLOV_PACKET and counts_len.
 *
 * AN INDEX lies beside a DSS recording: a big-endian length of all that follows it, 4 bytes, a version byte, 1, and KLOV_INDEX_ENTRY bytes for each
 * block that announces something, in order: the block's number, the number of its first packet, and where its reads start in the payload stream,
 * big-endian, 4 bytes each. Packets and blocks are numbered from 0. One recording has exactly one index, and every call that is lent one holds all
 * of it to the recording first, block by block: what is not the recording's is refused, and no entry of it is shown.
 *
 * A READER takes an SP recording in pieces. It reads, drains, or has ended:
 * - it reads from klov_open on. klov_piece takes a piece, which may be cut anywhere and may be empty, whole or not at all. A refused call
 *   changes nothing, and it goes on reading: after a refused end too;
 * - it drains once a lenient klov_end has answered and frames are still owed. Pieces and a strict klov_end are then refused by 6, and the
 *   lenient one is asked again until second is 0;
 * - it has ended once an end has answered and none is owed. Pieces are then refused by 6, and either end answers 0 packets, which says
 *   nothing more.
 * Owed are the frames that the whole blocks so far announce and that were not handed out: every answer has them in second, refused ones too,
 * so that an empty piece asks for them in any state.
 *
 * COMPLETE AS ANNOUNCED. A host that says so of a recording rests on this rule, and on no other answer:
 *
 * In pieces: the recording begins `\x02dss` or `\x03dss` and the reader was opened with that first byte, or it begins `\x01ds2` or `\x03ds2`
 * and the reader was opened with 0 (`\x07ds2` is never read in pieces: its audio start is not a reader's); at least its audio start was
 * taken; for DS2 the first announcing block's type is one that is read as SP (with none it is an empty recording); every piece was accepted,
 * in order; the strict end answered before any lenient end; and the recording does not begin swapped: its first packet's count is 42, or it
 * has no packet.
 *
 * Whole, of any kind: the tally answered, handed out is announced, short is 0, and no byte lies past the last whole block.
 *
 * A recording with packets that begins swapped (DS2: by block 0's flag; DSS: by the first announcing block's) has one or more whose carried byte
 * is ours, a zero that nobody recorded: the tally counts them short, and no host calls it complete.
 *
 * What says nothing: an end on no input (it answers, and there is no recording), a strict end after a lenient one, either end on a reader that
 * open refused, all of which answer 0; a reader opened for another kind, or one of kind 0 that is fed a `\x07ds2` recording: `klov_open` and
 * the reader look at no magic and no type.
 *
 * klov_reader_kind tells the kind that the rule in pieces asks for, klov_complete_as_announced is the rule for whole files. For the type keep
 * a DS2 recording's bytes until klov_piece has told of a frame (first + second above 0), and ask klov_tally of them: it is read as SP if the
 * tally answers and its kind is KLOV_DS2_SP.
 * More than was announced nobody can tell: a block that was zeroed, lost or written twice announces otherwise, and the format has no checksum.
 *
 * REFUSALS, each with its number, its cause and the number beside it. 4 and 5 say by `size` and `absent` how much is missing; in every other
 * answer these two are 0:
 *    1  under 4 bytes, or not a magic that the call takes                                  0
 *    2  input over the limit: a whole file, or all pieces together                         268435456
 *    3  a file shorter than its header, or an end after some bytes of a header, not all    where the audio starts
 *    4  QP7: fewer than 2 bytes where a record is to be read                               that place in the payload stream
 *         size 0, since it cannot be told; absent: how many of the first 2 bytes are not there, which is always 2
 *    5  QP7: a record runs past the payload stream                                         its place in the payload stream
 *         size: its bytes; absent: how many of them lie past the stream's end, an even number of at least 2. The stream has the payloads of whole
 *         blocks: bytes of a last block that is cut count as absent. Records that are announced after this one are not told of
 *    6  a piece after the end or while draining; the strict end while draining             0
 *    7  a piece: what is unread would not fit in the reader's hold                         12288
 *    8  packets, records or bytes exceed the room                                          how many are needed
 *    9  segments exceed their table                                                        how many are needed
 *   10  open: a kind other than 0, 2 and 3                                                 that kind
 *   11  a DS2 file that is read otherwise than by this call                                its type
 *   12  fetch, show: size 0 or over 56, past the payload stream, or a scratch under 56;
 *       payload: no such whole block                                                       0
 *   13  the strict end inside a block                                                      how many bytes of it there are
 *   14  the strict end with frames owed                                                    how many
 *   15  write: a header not of 1,536 bytes, or that does not begin `\x01ds2` or `\x03ds2`  0
 *   16  write: a packet that is cut short, or whose byte 40 is not 0                       its number, from 0
 *   17  write: the file would be over the limit                                            268435456
 *   18  packet, find: a number that is not below the packets announced                     how many those are
 *   19  index: under 4 bytes, or its length is 0 or not that of what follows it            0
 *   20  index: a version other than 1                                                      that version
 *   21  index: an entry differs from the recording's, is cut, absent or one too many       the first such entry, from 0
 *   22  end: the choice is neither KLOV_STRICT nor KLOV_LENIENT, in whatever state         0
 * Where several hold, the first in the call's own list is given.
 */
#ifndef KLOVDRUN_H
#define KLOVDRUN_H

#include <stddef.h>
#include <stdint.h>
#include <stdio.h>

#ifdef __cplusplus
extern "C" {
#endif

/* The version of all that is said here. It goes up with every change of an answer or of a layout; klov_version tells the archive's. */
#define KLOV_VERSION 5u
/* The longest input, and the longest file that is written, in bytes. */
#define KLOV_LIMIT 268435456u
/* Bytes of a packet, of a QP frame (and so of a scratch), of a block, and of a block's payload. */
#define KLOV_PACKET 42u
#define KLOV_FRAME 56u
#define KLOV_BLOCK 512u
#define KLOV_PAYLOAD 506u
/* Where the audio starts: of a DSS file with that first byte, 2 or 3; of a DS2 file with first byte 1 or 3. */
#define KLOV_DSS_START(first) (KLOV_BLOCK * (first))
#define KLOV_DS2_START 1536u
/* A QP7 record's bytes, by its second byte. */
#define KLOV_RECORD(second) ((second) < 0x80 ? 12u : KLOV_FRAME)
/* Words of a segment's entry in a table of QP, and in one of QP7. */
#define KLOV_QP_WORDS 4u
#define KLOV_QP7_WORDS 3u
/* Bytes of an index of version 1 before its entries, and of an entry. */
#define KLOV_INDEX_FRONT 5u
#define KLOV_INDEX_ENTRY 12u
/* Which end klov_end is asked for. */
#define KLOV_STRICT 0u
#define KLOV_LENIENT 1u
/* A reader's size and alignment. */
#define KLOV_READER_SIZE 12928u
#define KLOV_READER_ALIGN 8u
/* Room, in packets, that always suffices for a piece of so many bytes, with so many frames owed before it. */
#define KLOV_ROOM(owed, src_len) ((uint64_t)(owed) + 255u * (((uint64_t)(src_len) + (KLOV_BLOCK - 1u)) / KLOV_BLOCK))

/* A call whose answer is not looked at says nothing: a compiler that can warns of it. */
#if defined(__GNUC__)
#define KLOV_MUST_USE __attribute__((warn_unused_result))
#else
#define KLOV_MUST_USE
#endif

/* Refusals by their numbers; 0 is an answer. */
enum {
    KLOV_ANSWERED = 0,
    KLOV_REFUSED_MAGIC = 1,
    KLOV_REFUSED_LIMIT = 2,
    KLOV_REFUSED_HEADER = 3,
    KLOV_REFUSED_NO_RECORD = 4,
    KLOV_REFUSED_CUT_RECORD = 5,
    KLOV_REFUSED_ENDED = 6,
    KLOV_REFUSED_HOLD = 7,
    KLOV_REFUSED_ROOM = 8,
    KLOV_REFUSED_TABLE = 9,
    KLOV_REFUSED_KIND = 10,
    KLOV_REFUSED_TYPE = 11,
    KLOV_REFUSED_PLACE = 12,
    KLOV_REFUSED_CUT_BLOCK = 13,
    KLOV_REFUSED_OWING = 14,
    KLOV_REFUSED_WRITER_HEADER = 15,
    KLOV_REFUSED_PACKET = 16,
    KLOV_REFUSED_FILE_LIMIT = 17,
    KLOV_REFUSED_BEYOND = 18,
    KLOV_REFUSED_INDEX = 19,
    KLOV_REFUSED_INDEX_VERSION = 20,
    KLOV_REFUSED_INDEX_ENTRY = 21,
    KLOV_REFUSED_CHOICE = 22
};

/* What klov_detect_format answers. */
enum {
    KLOV_FORMAT_NONE = 0,
    KLOV_FORMAT_DSS_SP = 1,
    KLOV_FORMAT_DS2_SP = 2,
    KLOV_FORMAT_DS2_QP = 3,
    KLOV_FORMAT_DS2_QP7 = 4,
    KLOV_FORMAT_GRUNDIG_SP = 5
};

/* A tally's kind: how the file is read. A DS2 file of type 8 or above is read as QP, though its format is told as KLOV_FORMAT_DS2_SP. */
enum { KLOV_DSS_SP = 0, KLOV_DS2_SP = 1, KLOV_DS2_QP = 2, KLOV_DS2_QP7 = 3 };

/* A reader's kind, for klov_open: DS2, and DSS by its first byte. KLOV_READ_WHOLE is none of them, and refused. */
enum { KLOV_READ_DS2 = 0, KLOV_READ_WHOLE = 1, KLOV_READ_DSS_2 = 2, KLOV_READ_DSS_3 = 3 };

/* What most calls answer. `refusal` is 0, or a refusal's number, and then the number beside it is in `beside`. `first` and `second` are
 * named at each call; what is not named is 0. On a refusal `first` is 0, and so is `second` but for a reader's two calls. `size` and
 * `absent` are 0 but beside the refusals 4 and 5. */
typedef struct {
    uint64_t refusal;
    uint64_t beside;
    uint64_t first;
    uint64_t second;
    uint64_t size;
    uint64_t absent;
} klov_answer;

/* The tally of a file: its kind, where its audio starts, how many whole blocks follow, how many frames they announce; how many packets,
 * frames or records the whole reading hands out, how many of them are short, and how many bytes of the file they have. Short are packets as
 * PACKETS above has it, also where the carried byte alone is ours, and QP frames under KLOV_FRAME bytes; no QP7 record is. On a refusal these
 * seven are 0. `size` and `absent` are as in klov_answer. */
typedef struct {
    uint64_t refusal;
    uint64_t beside;
    uint64_t kind;
    uint64_t start;
    uint64_t blocks;
    uint64_t announced;
    uint64_t handed;
    uint64_t short_count;
    uint64_t bytes;
    uint64_t size;
    uint64_t absent;
} klov_tallied;

/* An entry of an index: the number of a block that announces something, the number of its first packet, and the place in the payload stream where
 * its reads start. On a refusal these three are 0. `size` and `absent` are as in klov_answer: 0. */
typedef struct {
    uint64_t refusal;
    uint64_t beside;
    uint64_t number;
    uint64_t first;
    uint64_t place;
    uint64_t size;
    uint64_t absent;
} klov_entry;

/* A reader. What is in it is its own. */
typedef struct {
    uint64_t opaque[KLOV_READER_SIZE / 8u];
} klov_reader;

/* A fresh reader beside the answer, with nothing between them. */
typedef struct {
    klov_answer answer;
    klov_reader reader;
} klov_opened;

/* The archive's version: if it is not KLOV_VERSION, this header is another archive's, and no other call may be made. */
KLOV_MUST_USE uint64_t klov_version(void);

/* What a file is, by its first bytes and its type: a KLOV_FORMAT. */
KLOV_MUST_USE uint8_t klov_detect_format(const uint8_t *file, size_t file_len);

/* Where a DS2 file's audio starts: a file place. */
KLOV_MUST_USE size_t klov_detect_ds2_audio_start(const uint8_t *file, size_t file_len);

/* The type of a DS2 file whose audio starts there. */
KLOV_MUST_USE uint8_t klov_detect_ds2_format_type(const uint8_t *file, size_t file_len, size_t header_size);

/* 1 if a block's header is good, else 0. */
KLOV_MUST_USE uint8_t klov_is_ds2_audio_block_header(const uint8_t *header, size_t header_len);

/* A block's payload, KLOV_PAYLOAD bytes of the file itself. first: the file place where they begin. Refusals 1, 2, 3, 12. */
KLOV_MUST_USE klov_answer klov_payload(const uint8_t *file, size_t file_len, size_t block);

/* All packets of an SP file. first: packets. With no room, out_len and counts_len 0, a call says by 8 how many there are.
 * klov_demux_dss: refusals 1, 2, 3, 8. klov_demux_ds2_sp: refusals 1, 2, 3, 11, 8. */
KLOV_MUST_USE klov_answer klov_demux_dss(const uint8_t *file, size_t file_len, uint8_t *out, size_t out_len, uint8_t *counts, size_t counts_len);
KLOV_MUST_USE klov_answer klov_demux_ds2_sp(const uint8_t *file, size_t file_len, uint8_t *out, size_t out_len, uint8_t *counts, size_t counts_len);

/* Any packet of a DS2 SP file at once, by its number, from 0: the bytes and the count that klov_demux_ds2_sp gives under that number, the
 * carried byte and the padding past the stream's end included. first: 1; the packet is in the first KLOV_PACKET bytes of out, its count in
 * counts[0]. Its read is swapped if the first block's flag is set and the number is even, or it is not set and the number is odd. In DS2 a packet
 * of a full count is whole, since its carried byte stands two places before its read; but not packet 0 if it is swapped, to which none was carried.
 * No packet before it is walked over, so that what a call costs does not grow with the number; but each call reads the count bytes of all whole
 * blocks, some three instructions a block, for how many packets are announced, and looks for audio start and type as every whole call does. With 0
 * announced every number is refused, by 18 with 0. Beside 8 stands 1. Refusals 1, 2, 3, 11, 18, 8. */
KLOV_MUST_USE klov_answer klov_ds2_sp_packet(const uint8_t *file, size_t file_len, size_t number, uint8_t *out, size_t out_len, uint8_t *counts, size_t counts_len);

/* All segments of a QP file, KLOV_QP_WORDS words each: start in the payload stream, length in bytes, frames, reset. first: segments; second:
 * frames announced. Room is table_len / KLOV_QP_WORDS. Refusals 1, 2, 3, 11, 9. */
KLOV_MUST_USE klov_answer klov_demux_ds2_qp(const uint8_t *file, size_t file_len, uint32_t *table, size_t table_len);

/* All records of a QP7 file, a word each: place in the payload stream; and all segments, KLOV_QP7_WORDS words each: first record,
 * records, reset. first: records; second: segments. Rooms are records_len and segments_len / KLOV_QP7_WORDS. Refusals 1, 2, 3, 11, 4, 5, 8,
 * 9. */
KLOV_MUST_USE klov_answer klov_demux_ds2_qp7(const uint8_t *file, size_t file_len, uint32_t *records, size_t records_len, uint32_t *segments, size_t segments_len);

/* Frame k of a QP segment that has `length` bytes from `start` on. first: its place in the payload stream; second: its size. Both are 0
 * when it is missing, or when its place would not fit 64 bits. The field `size` is no frame's, and 0. Refuses nothing. */
KLOV_MUST_USE klov_answer klov_frame(uint64_t start, uint64_t length, uint64_t k);

/* `size` bytes of a DS2 file's payload stream: a frame, or a QP7 record, of which the first 2 bytes are fetched first, since its second byte
 * has its size (KLOV_RECORD). first 0: they are the file's bytes from file place second on, and nothing was written. first 1: they are the
 * scratch's first bytes, and second is 0. klov_show writes nothing, with the same refusals and numbers: after klov_fetch with the same
 * arguments it says where to look. Refusals 1, 2, 3, 12. */
KLOV_MUST_USE klov_answer klov_fetch(const uint8_t *file, size_t file_len, size_t stream_place, size_t size, uint8_t *scratch, size_t scratch_len);
KLOV_MUST_USE klov_answer klov_show(const uint8_t *file, size_t file_len, size_t stream_place, size_t size, const uint8_t *scratch, size_t scratch_len);

/* What the whole reading of a file of any kind would hand out, in numbers. Refusals 1, 2, 3, 4, 5. */
KLOV_MUST_USE klov_tallied klov_tally(const uint8_t *file, size_t file_len);

/* A fresh reader of SP files in pieces: kind 0 for DS2, 2 or 3 for DSS with that first byte. Refusal 10; the reader is then an ended one, whose
 * ends answer and say nothing. */
KLOV_MUST_USE klov_opened klov_open(uint64_t kind);

/* A reader's calls, which advance it where it stands. first: packets handed out; second: frames owed afterwards, in refused answers too.
 *
 * A piece, src, is taken whole or refused. Room that always suffices is KLOV_ROOM(second of the call before, src_len). Or it is asked for: a
 * piece that there is not room enough for is refused by 8, with how many packets it brings, and given again with so much room. After a 7
 * the recording is read whole. Refusals 6, 2, 7, 8. */
KLOV_MUST_USE klov_answer klov_piece(klov_reader *reader, const uint8_t *src, size_t src_len, uint8_t *out, size_t out_len, uint8_t *counts, size_t counts_len);

/* An end, by the choice: KLOV_STRICT or KLOV_LENIENT. Refusals 6, 22, 3, 13, 14: of these the strict end has 6, 3, 13 and 14, the lenient end 3
 * alone, and every other choice has 22, whatever state the reader is in.
 *
 * The strict end hands out nothing and writes nothing, whatever room there is, so that both lengths may be 0. It ends the reader of a recording that
 * ends with a whole block and owes nothing. What its answer says of the recording is the rule above: on no input it answers too, and for a
 * recording that begins swapped. Once it has answered, before any lenient end, every packet that was handed out is whole but the swapped ones
 * before the first unswapped read, and all counts are full: the short ones are the leading counts of 40.
 *
 * The lenient end drops a block that is not whole, and hands out packets that are owed, zeros where the file has no bytes, as many as there
 * is room for. In DSS some of them can have their full count and be short all the same, by a carried byte that is ours. It is asked again while
 * second is above 0. */
KLOV_MUST_USE klov_answer klov_end(klov_reader *reader, uint64_t choice, uint8_t *out, size_t out_len, uint8_t *counts, size_t counts_len);

/* A DS2 SP file: the header as it is, KLOV_DS2_START bytes that begin `\x01ds2` or `\x03ds2`, and blocks of the packets, which are joined,
 * KLOV_PACKET bytes each, byte 40 of each 0, as the SP calls hand them out. Read whole it gives the same packets, each with its full count and
 * whole, since it begins unswapped, and it is complete as announced: zeros that stand for bytes that were missing, carried ones too, are then
 * bytes of the file like others. first: bytes of the file, which are the first of `out`; what lies past them is as it was. With no room, out_len
 * 0, a call says by 8 how many bytes the file has. Refusals 15, 16, 17, 8. */
KLOV_MUST_USE klov_answer klov_write_ds2_sp(const uint8_t *header, size_t header_len, const uint8_t *packets, size_t packets_len, uint8_t *out, size_t out_len);

/* The index of a DSS file. first: its bytes, which are the first of `out`; second: its entries. What lies past it is as it was. With no room, out_len
 * 0, a call says by 8 how many bytes it has: KLOV_INDEX_FRONT and KLOV_INDEX_ENTRY for each entry. Refusals 1, 2, 3, 8. */
KLOV_MUST_USE klov_answer klov_build_index(const uint8_t *file, size_t file_len, uint8_t *out, size_t out_len);

/* Reads an index with its DSS file lent: it is the one that klov_build_index gives, byte for byte, or it is refused. first: its entries; second:
 * packets in all. Refusals 1, 2, 3, 19, 20, 21. */
KLOV_MUST_USE klov_answer klov_read_index(const uint8_t *file, size_t file_len, const uint8_t *index, size_t index_len);

/* The entry for a packet by its number, from 0: that of the block which announces the packet. All of the index is held to the file before it is
 * looked up, so that what a call costs grows with the blocks. Refusals 1, 2, 3, 19, 20, 21, 18. */
KLOV_MUST_USE klov_entry klov_find_entry(const uint8_t *file, size_t file_len, const uint8_t *index, size_t index_len, size_t packet);

/* The packet of a DSS file by its index and number, from 0: the bytes and the count that klov_demux_dss gives under that number, the carried byte and
 * the padding past the stream's end included. first: 1; the packet is in the first KLOV_PACKET bytes of out, its count in counts[0]. What is carried
 * is taken from the last unswapped read before it, in its own block or in an earlier one, and no other packet is walked over. Beside 8 stands 1.
 * Refusals 1, 2, 3, 19, 20, 21, 18, 8. */
KLOV_MUST_USE klov_answer klov_dss_packet(const uint8_t *file, size_t file_len, const uint8_t *index, size_t index_len, size_t packet, uint8_t *out, size_t out_len, uint8_t *counts, size_t counts_len);

/* What follows is no part of the archive. */

/* The kind of reader that takes a recording which begins with these bytes, of which four are enough; KLOV_READ_WHOLE if none does. */
KLOV_MUST_USE static inline uint64_t klov_reader_kind(const uint8_t *first, size_t len)
{
    if (len < 4 || first[1] != 'd' || first[2] != 's')
        return KLOV_READ_WHOLE;
    if (first[3] == 's' && (first[0] == 2 || first[0] == 3))
        return first[0];
    return first[3] == '2' && (first[0] == 1 || first[0] == 3) ? KLOV_READ_DS2 : KLOV_READ_WHOLE;
}

/* 1 if a file of so many bytes, with this tally, is complete as announced, else 0. */
KLOV_MUST_USE static inline int klov_complete_as_announced(const klov_tallied *tallied, size_t file_len)
{
    return tallied->refusal == KLOV_ANSWERED && tallied->handed == tallied->announced && tallied->short_count == 0
        && file_len == tallied->start + KLOV_BLOCK * tallied->blocks;
}

/* The refusal of a tally, as an answer has it. */
KLOV_MUST_USE static inline klov_answer klov_tally_refusal(const klov_tallied *tallied)
{
    klov_answer refused = {tallied->refusal, tallied->beside, 0, 0, tallied->size, tallied->absent};
    return refused;
}

/* Room for any of the sentences below, with its end. */
#define KLOV_SENTENCE 192u

/* A sentence for a refusal, with its numbers, as snprintf puts it: into `text`, which has `room` bytes, KLOV_SENTENCE being enough. What comes
 * back is how long the whole sentence is. */
static inline int klov_refusal_sentence(char *text, size_t room, const klov_answer *refused)
{
    unsigned long long number = refused->refusal, beside = refused->beside, size = refused->size, absent = refused->absent;
    switch (number) {
    case KLOV_ANSWERED:
        return snprintf(text, room, "the call answered");
    case KLOV_REFUSED_MAGIC:
        return snprintf(text, room, "this is not a recording that the call reads: its first four bytes are others, or are not there");
    case KLOV_REFUSED_LIMIT:
        return snprintf(text, room, "the input is over the limit of %llu bytes", beside);
    case KLOV_REFUSED_HEADER:
        return snprintf(text, room, "the recording ends inside its header, which has %llu bytes", beside);
    case KLOV_REFUSED_NO_RECORD:
        return snprintf(text, room, "a record should begin at place %llu of the payload stream: %llu of its first 2 bytes are missing", beside, absent);
    case KLOV_REFUSED_CUT_RECORD:
        return snprintf(text, room, "a record of %llu bytes at place %llu of the payload stream: %llu bytes are missing", size, beside, absent);
    case KLOV_REFUSED_ENDED:
        return snprintf(text, room, "the reader has ended, or is being drained");
    case KLOV_REFUSED_HOLD:
        return snprintf(text, room, "what is unread would not fit in the reader's hold of %llu bytes", beside);
    case KLOV_REFUSED_ROOM:
        return snprintf(text, room, "the room is too small for %llu packets, records or bytes", beside);
    case KLOV_REFUSED_TABLE:
        return snprintf(text, room, "the table is too small: %llu segments need it", beside);
    case KLOV_REFUSED_KIND:
        return snprintf(text, room, "there is no reader of kind %llu", beside);
    case KLOV_REFUSED_TYPE:
        return snprintf(text, room, "this is a DS2 recording of type %llu, which another call reads", beside);
    case KLOV_REFUSED_PLACE:
        return snprintf(text, room, "the recording has no such frame or block, or the scratch is too small");
    case KLOV_REFUSED_CUT_BLOCK:
        return snprintf(text, room, "the recording ends inside a block, of which %llu bytes are there", beside);
    case KLOV_REFUSED_OWING:
        return snprintf(text, room, "the recording has ended, and %llu of the frames that it announces are owed", beside);
    case KLOV_REFUSED_WRITER_HEADER:
        return snprintf(text, room, "the header is not one of 1,536 bytes that begins a DS2 recording with first byte 1 or 3");
    case KLOV_REFUSED_PACKET:
        return snprintf(text, room, "packet %llu is cut short, or its byte 40 is not 0", beside);
    case KLOV_REFUSED_FILE_LIMIT:
        return snprintf(text, room, "the file would be over the limit of %llu bytes", beside);
    case KLOV_REFUSED_BEYOND:
        return snprintf(text, room, "there is no packet of that number: the recording announces %llu", beside);
    case KLOV_REFUSED_INDEX:
        return snprintf(text, room, "this is not an index: its first four bytes are 0, or not how many follow them, or are not there");
    case KLOV_REFUSED_INDEX_VERSION:
        return snprintf(text, room, "the index is of version %llu, which the call does not read", beside);
    case KLOV_REFUSED_INDEX_ENTRY:
        return snprintf(text, room, "the index is not this recording's: its entry %llu differs, is cut, is missing or is one too many", beside);
    case KLOV_REFUSED_CHOICE:
        return snprintf(text, room, "an end is strict or lenient: there is no other choice");
    default:
        return snprintf(text, room, "refusal %llu, which is not known here, with %llu", number, beside);
    }
}

#ifdef __cplusplus
}
#endif

#endif
