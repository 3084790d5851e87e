/* Tollgutter: one Video for Linux Two capture device, proved. C99, and C++.
 *
 * The library is crates/tollgutter/out/libtollgutter.a (tools/archive makes it). It allocates nothing, keeps nothing between
 * calls and depends on nothing: the caller owns the device, the arguments, the memories and the frames.
 * Every call answers every content of what it is lent; a refused call changes nothing. Numbers given back:
 *
 *     0 done   11 EAGAIN   14 EFAULT   16 EBUSY   22 EINVAL   25 ENOTTY   34 ERANGE   75 EOVERFLOW
 *
 * 11 is DQBUF's alone and means "soon": a run is on, and a frame may arrive. Once the run is over, or before one has begun,
 * DQBUF gives 22. 25 is an unknown word; a closed device gives 22 to that too, as to everything. 75 says that a count is at
 * its end. It is an arrival's, whose run has accepted 9,223,372,036,854,775,807 (2^63 - 1), as many as a run can: it takes
 * no more; what is stored can still be handed over, and the next run counts from 0. And it is a map's, whose buffer has 255
 * maps.
 *
 * A device has two streams, named by their buffer type: 1, pictures (video capture), and 6, caption lines (sliced VBI
 * capture). Each has its own buffers, maps, queues, run, verdict and memory; a call about one leaves the other as it was.
 * G_FMT, S_FMT, TRY_FMT, REQBUFS, QUERYBUF, QBUF, DQBUF, STREAMON and STREAMOFF take either type and answer with the one
 * asked; ENUM_FMT, CROPCAP, G_CROP and S_CROP take 1 alone, and the eighteenth word, G_SLICED_VBI_CAP (0xC0745645, 116
 * bytes, its type at 100), takes 6 alone. Any other type gives 22. QUERYCAP tells capabilities 0x04000041.
 *
 * S_FMT and TRY_FMT of type 1 take any width and height, and answer with the nearest of those that the sheet allows, the
 * smaller of two that are as near. It is found by arithmetic, not by a search: a client may try as many as it likes.
 *
 * S_CROP takes any rectangle. Its sizes are brought to 1 or more and into the bounds, its left and top to the nearest place at
 * which it lies inside them; then its top goes up to an even number of lines below that of the bounds, so that the fields of
 * a picture keep their order. The crop at opening is the sheet's default with its top moved so: G_CROP may tell another top than
 * CROPCAP, which tells the default as the sheet has it.
 *
 * The services of caption lines, and the lines that carry them (33 in all):
 *
 *     0x0001 Teletext B    lines 7 to 22 of both fields       0x1000 Caption 525   line 21 of both fields
 *     0x0400 VPS           line 16 of the first field         0x4000 WSS 625       line 23 of the first field
 *
 * S_FMT and TRY_FMT of type 6 ask by service_set (16 bits at 4 of the 204 bytes) for services on all their lines, or, if it
 * is zero, by service_lines (24 words of 16 bits from 6 on for the first field, 24 from 54 on for the second) for services
 * line by line. The answer has what is offered of them, and in io_size (at 104) 64 bytes for each line that carries
 * something; a slot is made for that many. At opening no service is negotiated, and without any REQBUFS grants 0.
 *
 * The buffers of a stream lie in its memory one after the other: that of index i from i times the slot on, and as long as a
 * slot, which is the image size, or io_size, rounded up to a multiple of 4,096. QUERYBUF, QBUF and DQBUF tell the offset (at
 * 52) and the length (at 56) of a buffer, and in its flags (at 12) the sum of 1 while it is mapped, 2 while it waits for a
 * frame, and 4 while it holds one. While any buffer of a stream is mapped (see tg_map), REQBUFS of that stream gives 16 for
 * every count, 0 too, after the tests of length, type and memory and before that for a run: a run goes on, and the buffers
 * stay as they are. STREAMON and STREAMOFF leave maps alone.
 *
 * What the caller has to see to, since no proof reaches a C caller:
 *   - each pointer points to as many bytes as its length says (a length of 0 may come with any pointer that is
 *     not null), and stays valid during the call;
 *   - what one call is lent does not overlap, except that two things that are only read may;
 *   - one device is used by one thread at a time;
 *   - nobody else writes the device, nor, while a frame in it is still wanted, the memory of its stream.
 */
#ifndef TOLLGUTTER_H
#define TOLLGUTTER_H

#include <stddef.h>
#include <stdint.h>

#ifdef __cplusplus
extern "C" {
#endif

/* The device. Its fields are the library's own: they are named here so that the layout is fixed and can be looked
 * at in a debugger. A program reads and writes them by the calls below. All zero is a closed device. There are no
 * bytes between the fields and none behind the last one. */
struct tg_setup {
    uint32_t ready; /* 0: closed */
    struct {        /* the format in force */
        uint32_t width;
        uint32_t height;
        uint32_t code; /* four letters, the first in the lowest byte */
        uint32_t line; /* bytes in a line of the first plane */
        uint32_t size; /* bytes in an image */
    } format;
    struct { /* the crop rectangle in force; its top is an even number of lines below that of the bounds */
        int32_t left;
        int32_t top;
        int32_t width;
        int32_t height;
    } crop;
};

/* A stream: its buffers and its run. The buffers that a client has handed in and not got back stand in one line, the oldest
 * first. What is kept of the i-th of the line, from 0 on, stands at place (head + i) modulo 32 of the five arrays
 * index to microseconds; other places of these mean nothing. The first `holding` buffers of the line hold a frame and go out
 * next; the others wait for one. A `lined` above 32 counts as 32, and a `holding` above `lined` as `lined`. */
struct tg_stream {
    uint64_t length;           /* bytes of its memory, as told at opening */
    uint64_t streaming;        /* 0: no run is on */
    uint64_t ran;              /* 0: no run was ever begun */
    uint64_t accepted;         /* of the last run: how many arrivals were accepted, up to 2^63 - 1 */
    uint64_t handed;           /* frames handed over by DQBUF */
    uint64_t damaged;          /* arrivals that were not whole */
    uint64_t dropped;          /* whole arrivals that found no buffer waiting */
    uint64_t discarded;        /* stored frames that the end of the run threw away */
    uint64_t granted;          /* how many buffers there are */
    uint64_t head;             /* where the line begins */
    uint64_t holding;          /* how many of the line hold a frame */
    uint64_t lined;            /* how many stand in the line */
    uint64_t next_number;      /* the number of the next arrival: `accepted` modulo 2^32; only the low 32 bits are read */
    uint64_t spare[3];         /* not used: zero */
    uint64_t index[32];        /* which buffer it is */
    uint64_t number[32];       /* of its frame: the number in the run, below 2^32 */
    uint64_t used[32];         /* the bytes of the frame */
    uint64_t seconds[32];      /* the frame's time: the 32 bits of the signed number, zeros above them */
    uint64_t microseconds[32]; /* likewise */
    uint64_t maps[32];         /* of buffer i, at place i: how often it is mapped, up to 255 */
};

struct tg_device {
    uint8_t sheet[2688];       /* the sheet, and zeros behind it */
    struct tg_setup setup;
    uint32_t values[32];       /* the values of the controls, in the sheet's order */
    struct tg_stream video;    /* type 1 */
    struct tg_stream captions; /* type 6 */
    uint16_t services[48];     /* those negotiated on line l of field f, at 24 f + l; fields and lines count from 0 */
};

/* What an arrival is answered. */
enum { TG_REFUSED = 0, TG_IGNORED = 1, TG_DAMAGED = 2, TG_DROPPED = 3, TG_STORED = 4 };

struct tg_arrived {
    uint32_t answer; /* TG_REFUSED .. TG_STORED */
    uint32_t number; /* refused: the number given back; stored: the frame's number, see tg_arrival; else 0 */
    uint32_t buffer; /* stored: the index of the buffer; else 0 */
};

/* What can be said of the film of a stream's last run. */
enum { TG_RUNNING = 0, TG_BLANK = 1, TG_GAPS = 2, TG_COMPLETE = 3 };

/* A plane of a frame: `length` bytes from `start` on. A refusal is 22, 0, 0. */
struct tg_plane {
    uint32_t number;
    size_t start;
    size_t length;
};

/* Makes a device of a sheet, for a picture memory and a caption memory of these lengths, each at most 1,073,741,824: 0, or
 * 22 and a closed device. A memory of length 0 holds no buffer. The sheet is copied. What `d` held before does not
 * matter. */
uint32_t tg_open(struct tg_device *d, const uint8_t *sheet, size_t sheet_length, uint64_t picture_length,
                 uint64_t caption_length);

/* A request: its word, and its argument in the 32-bit little-endian layout. The number given back. */
uint32_t tg_request(struct tg_device *d, uint32_t word, uint8_t *argument, size_t length);

/* A frame arrives at the stream of this type; another type is refused with 22. `memory` is the memory of that stream, of the
 * length told at opening, else 14; only a stored frame is written, its own bytes and no more, at the start of its buffer's
 * slot. A frame is whole, and not damaged, if its microseconds are in 0..999,999 and
 *   - of type 1: its length is the image size;
 *   - of type 6: it is records of 64 bytes, none or more, in any order: service at 0, field (0 or 1) at 4, line at 8, each
 *     of 32 bits, a reserved word and 48 bytes of payload. The service is exactly one of the four, negotiated on that line
 *     of that field by the answer of the stream's last accepted S_FMT, and no line of a field comes twice.
 * While a run is on, every arrival that is not refused is accepted: it is counted and takes a number, damaged and dropped ones
 * too. The number is how many the run accepted before, modulo 4,294,967,296: after 4,294,967,295 it goes back to 0, and the run
 * goes on. That of a stored frame is told here, and by QUERYBUF and DQBUF (at 44). Once a run has accepted
 * 9,223,372,036,854,775,807, any more are refused with 75. */
struct tg_arrived tg_arrival(struct tg_device *d, uint32_t type, uint8_t *memory, size_t memory_length,
                             const uint8_t *frame, size_t frame_length, int32_t seconds, int32_t microseconds);

/* Counts a map of a buffer, told by the type of its stream, and by its offset and length as QUERYBUF tells them. The library
 * maps nothing: it only keeps count of what the driver of the box maps for a client, so that REQBUFS cannot give away memory
 * that is still mapped. Who opens a device anew over this one forgets its maps. The numbers, in the order of the tests:
 *   - 22: the device is closed, the type is not 1 or 6, or no buffer that the stream has lies there and is that long;
 *   - 75: the buffer has 255 maps;
 *   - 0: the buffer has one map more. The queues, the run, the verdict and the memory stay as they are. */
uint32_t tg_map(struct tg_device *d, uint32_t type, uint32_t offset, uint32_t length);

/* Takes one off that count: 22 for the same as above, or if the buffer has no map; else 0. */
uint32_t tg_unmap(struct tg_device *d, uint32_t type, uint32_t offset, uint32_t length);

/* Of the stream of this type: TG_RUNNING while streaming, else the verdict on its last run: TG_BLANK, TG_GAPS or
 * TG_COMPLETE. It goes by the counts of 64 bits, not by the numbers. Of another type: TG_BLANK. */
uint32_t tg_verdict(const struct tg_device *d, uint32_t type);

/* Where a plane of a picture of the present format lies; planes count from 0. */
struct tg_plane tg_plane(const struct tg_device *d, size_t frame_length, uint32_t plane);

/* Caption lines inside a film: the packing of struct v4l2_mpeg_vbi_fmt_ivtv, written and read. No device takes part. A block
 * has
 *   - of fewer than 36 lines: the letters itv0, two little-endian masks of 32 bits, then the lines that are present;
 *   - of all 36: the letters ITV0, then the lines.
 * Bits 0 to 17 of the masks are lines 6 to 23 of the first field, bits 18 to 35 the same of the second; the first mask has
 * bits 0 to 31. Lines stand in the order of their bits, 43 bytes each: an identifier, then 42 bytes, of which those that the
 * service does not carry are zero.
 *
 *     service        0x0001 Teletext B   0x0400 VPS   0x1000 Caption 525   0x4000 WSS 625
 *     identifier             1                7                4                  5
 *     bytes carried         42               13                2                  2
 *
 * Any service may stand on any of the 36 lines. Each set of lines has one block; that of no line has 12 bytes. */

/* The bytes of a block of n lines: 12 + 43 n for n below 36, and 1,552 for 36. More lines have no block: 0. */
size_t tg_vbi_block_length(size_t lines);

/* Writes a block. The lines are records of 64 bytes as in tg_arrival, none or more, in any order; their reserved words, and
 * the payload that a service does not carry, may hold anything. 0; or 22, and nothing is written, if
 *   - the length of the lines is no multiple of 64, or a service is not exactly one of the four;
 *   - a field is not 0 or 1, a line is not in 6 to 23, or a line of a field comes twice;
 *   - the block has not exactly the length of so many lines. */
uint32_t tg_vbi_pack(const uint8_t *lines, size_t lines_length, uint8_t *block, size_t block_length);

/* Reads a block. The records come in the order of their bits; in them the reserved word, and the payload that the service
 * does not carry, is zero. 0; or 22, and nothing is written, if
 *   - the block opens with other letters, a bit above 35 is set, or all 36 bits are set behind itv0;
 *   - an identifier is not one of the four, or a byte that the service does not carry is not zero;
 *   - the block has not exactly the length of the lines that it tells of (bytes that fill up its end are not taken), or the
 *     lines that are lent have not exactly 64 bytes for each of these. */
uint32_t tg_vbi_unpack(const uint8_t *block, size_t block_length, uint8_t *lines, size_t lines_length);

#ifdef __cplusplus
}
#endif

#endif
