/* A short session through include/tollgutter.h, in C99 and in C++. It holds the header's struct, field by field, to what
 * the library keeps there, and checks the answers on the way; then it packs caption lines and reads them back. Prints what
 * failed; exit 0 if nothing did. */
#include "tollgutter.h"

#include <stdio.h>
#include <string.h>

enum {
    QUERYCAP, ENUM_FMT, G_FMT, S_FMT, TRY_FMT, REQBUFS, QUERYBUF, QBUF, DQBUF,
    STREAMON, STREAMOFF, G_CTRL, S_CTRL, QUERYCTRL, CROPCAP, G_CROP, S_CROP, G_SLICED_VBI_CAP, CALLS
};

static const struct { const char *name; uint32_t word; } calls[CALLS] = {
    {"QUERYCAP", 0x80685600u}, {"ENUM_FMT", 0xC0405602u}, {"G_FMT", 0xC0CC5604u}, {"S_FMT", 0xC0CC5605u},
    {"TRY_FMT", 0xC0CC5640u}, {"REQBUFS", 0xC0145608u}, {"QUERYBUF", 0xC0445609u}, {"QBUF", 0xC044560Fu},
    {"DQBUF", 0xC0445611u}, {"STREAMON", 0x40045612u}, {"STREAMOFF", 0x40045613u}, {"G_CTRL", 0xC008561Bu},
    {"S_CTRL", 0xC008561Cu}, {"QUERYCTRL", 0xC0445624u}, {"CROPCAP", 0xC02C563Au}, {"G_CROP", 0xC014563Bu},
    {"S_CROP", 0x4014563Cu}, {"G_SLICED_VBI_CAP", 0xC0745645u},
};

enum { PICTURES = 1, CAPTIONS = 6, LOAD = 0x1000, RECORD = 64, LINES = 8 * 4096 + 100 };
enum { MEMORY = 2000000, WIDTH = 160, HEIGHT = 120, LINE = 320, IMAGE = LINE * HEIGHT, SLOT = 40960, GUARD = 64 };
#define YUYV 0x56595559u
#define YU12 0x32315559u
#define CONTRAST 0x00980901u

static int failures;

static void expect(const char *what, uint64_t want, uint64_t got)
{
    if (want == got) return;
    printf("%s: expected %llu, got %llu\n", what, (unsigned long long)want, (unsigned long long)got);
    failures++;
}

static void put(uint8_t *at, uint32_t word)
{
    at[0] = (uint8_t)word;
    at[1] = (uint8_t)(word >> 8);
    at[2] = (uint8_t)(word >> 16);
    at[3] = (uint8_t)(word >> 24);
}

static uint32_t get(const uint8_t *at)
{
    return (uint32_t)at[0] | (uint32_t)at[1] << 8 | (uint32_t)at[2] << 16 | (uint32_t)at[3] << 24;
}

/* Two formats, widths 160..640 by 16, heights 120..480 by 2, lines of 64, one control from -10 to 10 by 4. */
static size_t make_sheet(uint8_t *sheet)
{
    static const uint32_t contents[8] = {32, 1, 116, 2, 188, 1, 256, 1};
    static const uint32_t geometry[17] = {160, 640, 16, 120, 480, 2, 64, (uint32_t)-8, 0, 640, 400,
                                          (uint32_t)-8, 0, 640, 400, 1, 1};
    int i;
    memset(sheet, 0, 324);
    for (i = 0; i < 8; i++) put(sheet + 4 * i, contents[i]);
    put(sheet + 116, YUYV);
    put(sheet + 152, YU12);
    for (i = 0; i < 17; i++) put(sheet + 188 + 4 * i, geometry[i]);
    put(sheet + 256, CONTRAST);
    put(sheet + 260, 1);
    put(sheet + 256 + 40, (uint32_t)-10);
    put(sheet + 256 + 44, 10);
    put(sheet + 256 + 48, 4);
    put(sheet + 256 + 52, (uint32_t)-2);
    return 324;
}

/* The device between two guards that no call may touch. */
static struct {
    uint8_t before[GUARD];
    struct tg_device device;
    uint8_t behind[GUARD];
} box;

static uint8_t memory[MEMORY], lines[LINES], frame[IMAGE], argument[204];

static uint32_t request(int call)
{
    return tg_request(&box.device, calls[call].word, argument, (calls[call].word >> 16) & 0x3fff);
}

static uint32_t buffer_of(int call, uint32_t type, uint32_t index)
{
    memset(argument, 0, sizeof argument);
    put(argument, index);
    put(argument + 4, type);
    put(argument + 48, 1);
    return request(call);
}

static uint32_t buffer(int call, uint32_t index)
{
    return buffer_of(call, PICTURES, index);
}

static uint32_t simple(int call, uint32_t a, uint32_t b, uint32_t c, uint32_t d, uint32_t e)
{
    memset(argument, 0, sizeof argument);
    put(argument, a);
    put(argument + 4, b);
    put(argument + 8, c);
    put(argument + 12, d);
    put(argument + 16, e);
    return request(call);
}

static struct tg_arrived arrive(uint8_t fill, size_t length, int32_t seconds, int32_t microseconds)
{
    memset(frame, fill, sizeof frame);
    return tg_arrival(&box.device, PICTURES, memory, sizeof memory, frame, length, seconds, microseconds);
}

static uint32_t verdict(uint32_t type)
{
    return tg_verdict(&box.device, type);
}

static void sizes(void)
{
    expect("sizeof tg_device", 6280, sizeof(struct tg_device));
    expect("sizeof tg_setup", 40, sizeof(struct tg_setup));
    expect("sizeof tg_stream", 1664, sizeof(struct tg_stream));
    expect("sizeof tg_arrived", 12, sizeof(struct tg_arrived));
    expect("sizeof tg_plane", 24, sizeof(struct tg_plane));
    expect("offset of setup", 2688, offsetof(struct tg_device, setup));
    expect("offset of values", 2728, offsetof(struct tg_device, values));
    expect("offset of video", 2856, offsetof(struct tg_device, video));
    expect("offset of captions", 4520, offsetof(struct tg_device, captions));
    expect("offset of services", 6184, offsetof(struct tg_device, services));
    expect("offset of lined", 88, offsetof(struct tg_stream, lined));
    expect("offset of accepted", 24, offsetof(struct tg_stream, accepted));
    expect("offset of next_number", 96, offsetof(struct tg_stream, next_number));
    expect("offset of spare", 104, offsetof(struct tg_stream, spare));
    expect("offset of index", 128, offsetof(struct tg_stream, index));
    expect("offset of maps", 1408, offsetof(struct tg_stream, maps));
}

static void closed(void)
{
    struct tg_device zero;
    memset(&zero, 0, sizeof zero);
    memset(argument, 0, sizeof argument);
    expect("all zero: QUERYCAP", 22, tg_request(&zero, calls[QUERYCAP].word, argument, 104));
    expect("all zero: unknown word", 22, tg_request(&zero, 0x12345678u, argument, 4));
    expect("all zero: verdict", TG_BLANK, tg_verdict(&zero, PICTURES));
    expect("all zero: verdict of captions", TG_BLANK, tg_verdict(&zero, CAPTIONS));
    expect("all zero: plane", 22, tg_plane(&zero, 0, 0).number);
    expect("all zero: arrival", 22, tg_arrival(&zero, PICTURES, memory, 0, frame, 0, 0, 0).number);
    expect("all zero: arrival of captions", 22, tg_arrival(&zero, CAPTIONS, lines, 0, frame, 0, 0, 0).number);
    expect("all zero: map", 22, tg_map(&zero, PICTURES, 0, 4096));
    expect("all zero: unmap of captions", 22, tg_unmap(&zero, CAPTIONS, 0, 4096));
    expect("bad sheet", 22, tg_open(&box.device, memory, sizeof memory, MEMORY, LINES));
    expect("bad sheet: sheet", 0, (uint64_t)memcmp(box.device.sheet, zero.sheet, sizeof zero.sheet));
    expect("bad sheet: ready", 0, box.device.setup.ready);
    expect("bad sheet: closed", 22, tg_request(&box.device, calls[QUERYCAP].word, argument, 104));
}

/* What is not used yet stays zero. */
static void unused(void)
{
    const struct tg_stream *v = &box.device.video, *c = &box.device.captions;
    int i;
    for (i = 0; i < 3; i++) expect("spare", 0, v->spare[i] | c->spare[i]);
}

/* A stream as it is after an opening. */
static void fresh(const struct tg_stream *s, uint64_t length)
{
    int i;
    expect("length", length, s->length);
    expect("streaming", 0, s->streaming);
    expect("ran", 0, s->ran);
    expect("accepted", 0, s->accepted);
    expect("handed", 0, s->handed);
    expect("damaged", 0, s->damaged);
    expect("dropped", 0, s->dropped);
    expect("discarded", 0, s->discarded);
    expect("granted", 0, s->granted);
    expect("head", 0, s->head);
    expect("holding", 0, s->holding);
    expect("lined", 0, s->lined);
    expect("next_number", 0, s->next_number);
    for (i = 0; i < 32; i++) {
        expect("index", 0, s->index[i]);
        expect("number", 0, s->number[i]);
        expect("used", 0, s->used[i]);
        expect("seconds", 0, s->seconds[i]);
        expect("microseconds", 0, s->microseconds[i]);
        expect("maps", 0, s->maps[i]);
    }
}

static void opening(void)
{
    uint8_t sheet[324], rest[2688 - 324];
    const struct tg_device *s = &box.device;
    size_t length = make_sheet(sheet);
    int i;
    memset(&box, 0xA5, sizeof box);
    memset(rest, 0, sizeof rest);
    expect("picture memory too long", 22, tg_open(&box.device, sheet, length, 1073741825, LINES));
    expect("caption memory too long", 22, tg_open(&box.device, sheet, length, MEMORY, 1073741825));
    expect("open", 0, tg_open(&box.device, sheet, length, MEMORY, LINES));
    expect("sheet", 0, (uint64_t)memcmp(box.device.sheet, sheet, length));
    expect("sheet, the rest", 0, (uint64_t)memcmp(box.device.sheet + length, rest, sizeof rest));
    expect("ready", 1, s->setup.ready);
    expect("format.width", 640, s->setup.format.width);
    expect("format.height", 480, s->setup.format.height);
    expect("format.code", YUYV, s->setup.format.code);
    expect("format.line", 1280, s->setup.format.line);
    expect("format.size", 614400, s->setup.format.size);
    expect("crop.left", (uint32_t)-8, (uint32_t)s->setup.crop.left);
    expect("crop.top", 0, (uint32_t)s->setup.crop.top);
    expect("crop.width", 640, (uint32_t)s->setup.crop.width);
    expect("crop.height", 400, (uint32_t)s->setup.crop.height);
    expect("values[0]", (uint32_t)-2, s->values[0]);
    for (i = 1; i < 32; i++) expect("values[i]", 0, s->values[i]);
    fresh(&s->video, MEMORY);
    fresh(&s->captions, LINES);
    for (i = 0; i < 48; i++) expect("services", 0, s->services[i]);
    unused();
}

static void settings(void)
{
    const struct tg_device *s = &box.device;
    expect("S_FMT", 0, simple(S_FMT, 1, 304, 224, YU12, 0));
    expect("format.code", YU12, s->setup.format.code);
    expect("format.line", 320, s->setup.format.line);
    expect("format.size", 107520, s->setup.format.size);
    expect("S_FMT", 0, simple(S_FMT, 1, WIDTH, HEIGHT, YUYV, 0));
    expect("S_FMT: line", LINE, get(argument + 20));
    expect("S_FMT: image", IMAGE, get(argument + 24));
    expect("format.width", WIDTH, s->setup.format.width);
    expect("format.height", HEIGHT, s->setup.format.height);
    expect("format.code", YUYV, s->setup.format.code);
    expect("format.line", LINE, s->setup.format.line);
    expect("format.size", IMAGE, s->setup.format.size);
    expect("S_CROP", 0, simple(S_CROP, 1, 20, 31, 500, 300));
    expect("crop.left", 20, (uint32_t)s->setup.crop.left);
    expect("crop.top", 30, (uint32_t)s->setup.crop.top);
    expect("crop.width", 500, (uint32_t)s->setup.crop.width);
    expect("crop.height", 300, (uint32_t)s->setup.crop.height);
    expect("S_CTRL", 0, simple(S_CTRL, CONTRAST, 7, 0, 0, 0));
    expect("values[0]", 6, s->values[0]);
    expect("unknown word", 25, tg_request(&box.device, 0x12345678u, argument, 4));
    expect("wrong length", 14, tg_request(&box.device, calls[G_FMT].word, argument, 203));
    memset(argument, 0xA5, sizeof argument);
    expect("QUERYCAP", 0, request(QUERYCAP));
    expect("QUERYCAP: capabilities", 0x04000041, get(argument + 84));
}

/* How many of the line hold a frame, and how many stand in it. */
static void line(uint64_t holding, uint64_t lined)
{
    expect("video.holding", holding, box.device.video.holding);
    expect("video.lined", lined, box.device.video.lined);
}

/* The place of the i-th of the line. */
static unsigned place(uint64_t i)
{
    return (unsigned)((box.device.video.head + i) % 32);
}

/* The i-th of the line holds this frame. */
static void holds(uint64_t i, uint32_t index, uint32_t number, int32_t seconds, int32_t microseconds)
{
    const struct tg_stream *v = &box.device.video;
    expect("video.index", index, v->index[place(i)]);
    expect("video.number", number, v->number[place(i)]);
    expect("video.used", IMAGE, v->used[place(i)]);
    expect("video.seconds", (uint32_t)seconds, v->seconds[place(i)]);
    expect("video.microseconds", (uint32_t)microseconds, v->microseconds[place(i)]);
}

/* The oldest frame is handed over: this buffer, with this number. The line begins one place further on. */
static void handed_over(uint32_t index, uint32_t number)
{
    unsigned next = place(1);
    expect("DQBUF", 0, buffer(DQBUF, 0));
    expect("DQBUF: index", index, get(argument));
    expect("DQBUF: number", number, get(argument + 44));
    expect("video.head", next, place(0));
}

/* All 32 buffers are handed in, the last one first, and filled. */
static void fill(void)
{
    const struct tg_stream *v = &box.device.video;
    struct tg_arrived a;
    uint32_t i;
    expect("REQBUFS", 0, simple(REQBUFS, 40, 1, 1, 0, 0));
    expect("video.granted", 32, v->granted);
    for (i = 0; i < 32; i++) {
        expect("QBUF", 0, buffer(QBUF, 31 - i));
        line(0, i + 1);
    }
    for (i = 0; i < 32; i++) expect("video.index", 31 - i, v->index[place(i)]);
    expect("DQBUF, no run yet", 22, buffer(DQBUF, 0));
    expect("STREAMON", 0, simple(STREAMON, 1, 0, 0, 0, 0));
    expect("video.streaming", 1, v->streaming);
    expect("video.ran", 1, v->ran);
    expect("verdict", TG_RUNNING, verdict(PICTURES));
    expect("DQBUF", 11, buffer(DQBUF, 0));
    expect("short frame", TG_DAMAGED, arrive(1, IMAGE - 1, 1, 1).answer);
    for (i = 1; i <= 32; i++) {
        a = arrive((uint8_t)i, IMAGE, -(int32_t)i, (int32_t)i);
        expect("stored", TG_STORED, a.answer);
        expect("stored: number", i, a.number);
        expect("stored: buffer", 32 - i, a.buffer);
        expect("stored: bytes", i, memory[(32 - i) * SLOT + IMAGE - 1]);
        line(i, 32);
    }
    expect("no buffer", TG_DROPPED, arrive(99, IMAGE, 0, 0).answer);
    expect("video.accepted", 34, v->accepted);
    expect("video.next_number", 34, v->next_number);
    expect("video.damaged", 1, v->damaged);
    expect("video.dropped", 1, v->dropped);
    for (i = 0; i < 32; i++) holds(i, 31 - i, i + 1, -(int32_t)(i + 1), (int32_t)(i + 1));
}

/* Five frames are handed over, two buffers come back, one of them is filled: the line goes on at the arrays' start. */
static void go_on(void)
{
    const struct tg_stream *v = &box.device.video;
    uint32_t i;
    handed_over(31, 1);
    expect("DQBUF: bytes used", IMAGE, get(argument + 8));
    expect("DQBUF: seconds", (uint32_t)-1, get(argument + 20));
    expect("DQBUF: microseconds", 1, get(argument + 24));
    expect("DQBUF: offset", 31 * SLOT, get(argument + 52));
    expect("DQBUF: length", SLOT, get(argument + 56));
    for (i = 1; i < 5; i++) handed_over(31 - i, i + 1);
    expect("video.handed", 5, v->handed);
    line(27, 27);
    expect("QBUF", 0, buffer(QBUF, 29));
    expect("QBUF", 0, buffer(QBUF, 31));
    line(27, 29);
    expect("video.index", 29, v->index[place(27)]);
    expect("video.index", 31, v->index[place(28)]);
    expect("QBUF of one in the line", 22, buffer(QBUF, 29));
    expect("stored", 29, arrive(77, IMAGE, -2147483647 - 1, 999999).buffer);
    line(28, 29);
    for (i = 0; i < 27; i++) holds(i, 26 - i, i + 6, -(int32_t)(i + 6), (int32_t)(i + 6));
    holds(27, 29, 34, -2147483647 - 1, 999999);
    expect("video.index", 31, v->index[place(28)]);
    expect("QUERYBUF", 0, buffer(QUERYBUF, 29));
    expect("QUERYBUF: flags", 4, get(argument + 12));
    expect("QUERYBUF: seconds", 0x80000000u, get(argument + 20));
    expect("QUERYBUF: number", 34, get(argument + 44));
    expect("QUERYBUF", 0, buffer(QUERYBUF, 31));
    expect("QUERYBUF: flags", 2, get(argument + 12));
    expect("STREAMOFF", 0, simple(STREAMOFF, 1, 0, 0, 0, 0));
    line(0, 0);
    expect("video.streaming", 0, v->streaming);
    expect("video.ran", 1, v->ran);
    expect("video.accepted", 35, v->accepted);
    expect("video.handed", 5, v->handed);
    expect("video.discarded", 28, v->discarded);
    expect("video.granted", 32, v->granted);
    expect("verdict", TG_GAPS, verdict(PICTURES));
}

/* Three buffers, 40 frames: the line goes round the arrays. While one frame waits to be handed over the next arrives. */
static void go_round(void)
{
    const struct tg_stream *v = &box.device.video;
    uint32_t i;
    expect("REQBUFS", 0, simple(REQBUFS, 3, 1, 1, 0, 0));
    expect("video.granted", 3, v->granted);
    expect("STREAMON", 0, simple(STREAMON, 1, 0, 0, 0, 0));
    expect("video.accepted", 0, v->accepted);
    expect("video.next_number", 0, v->next_number);
    expect("video.handed", 0, v->handed);
    expect("video.damaged", 0, v->damaged);
    expect("video.dropped", 0, v->dropped);
    expect("video.discarded", 0, v->discarded);
    expect("QBUF", 0, buffer(QBUF, 0));
    expect("stored", TG_STORED, arrive(1, IMAGE, -1, 0).answer);
    for (i = 1; i < 40; i++) {
        expect("QBUF", 0, buffer(QBUF, i % 3));
        line(1, 2);
        expect("stored: buffer", i % 3, arrive((uint8_t)i, IMAGE, (int32_t)i - 1, (int32_t)i).buffer);
        line(2, 2);
        holds(0, (i - 1) % 3, i - 1, (int32_t)i - 2, (int32_t)i - 1);
        holds(1, i % 3, i, (int32_t)i - 1, (int32_t)i);
        handed_over((i - 1) % 3, i - 1);
    }
    handed_over(39 % 3, 39);
    line(0, 0);
    expect("DQBUF", 11, buffer(DQBUF, 0));
    expect("STREAMOFF", 0, simple(STREAMOFF, 1, 0, 0, 0, 0));
    expect("DQBUF, stopped", 22, buffer(DQBUF, 0));
    expect("video.accepted", 40, v->accepted);
    expect("video.handed", 40, v->handed);
    expect("video.discarded", 0, v->discarded);
    expect("verdict", TG_COMPLETE, verdict(PICTURES));
    fresh(&box.device.captions, LINES);
    unused();
}

static void outside_a_run(void)
{
    struct tg_arrived a;
    expect("ignored", TG_IGNORED, arrive(1, IMAGE, 0, 0).answer);
    a = tg_arrival(&box.device, PICTURES, memory, sizeof memory - 1, frame, IMAGE, 0, 0);
    expect("wrong memory", TG_REFUSED, a.answer);
    expect("wrong memory: number", 14, a.number);
    expect("video.length", MEMORY, box.device.video.length);
}

static void planes(void)
{
    struct tg_plane p;
    expect("REQBUFS 0", 0, simple(REQBUFS, 0, 1, 1, 0, 0));
    expect("video.granted", 0, box.device.video.granted);
    expect("S_FMT", 0, simple(S_FMT, 1, 304, 224, YU12, 0));
    p = tg_plane(&box.device, 107520, 2);
    expect("plane: number", 0, p.number);
    expect("plane: start", 89600, p.start);
    expect("plane: length", 17920, p.length);
    p = tg_plane(&box.device, 107519, 2);
    expect("plane refused", 22, p.number);
    expect("plane refused: length", 0, p.length);
}

/* A record: the reading of the load cell, two bytes, on a line of a field. */
static void record(uint8_t *at, uint32_t service, uint32_t field, uint32_t line_number, uint16_t reading)
{
    memset(at, 0, RECORD);
    put(at, service);
    put(at + 4, field);
    put(at + 8, line_number);
    at[16] = (uint8_t)reading;
    at[17] = (uint8_t)(reading >> 8);
}

/* So many bytes of the frame arrive as caption lines. */
static struct tg_arrived lines_arrive(size_t length, int32_t seconds, int32_t microseconds)
{
    return tg_arrival(&box.device, CAPTIONS, lines, sizeof lines, frame, length, seconds, microseconds);
}

/* What is offered, and the load line of both fields negotiated out of it. The lines stand at 2, and at 6 in a format. */
static void negotiate(void)
{
    uint32_t i, carrying = 0;
    memset(argument, 0xA5, sizeof argument);
    put(argument + 100, CAPTIONS);
    expect("G_SLICED_VBI_CAP", 0, request(G_SLICED_VBI_CAP));
    expect("G_SLICED_VBI_CAP: services", 0x5401, get(argument) & 0xffff);
    for (i = 0; i < 48; i++) carrying += (argument[2 + 2 * i] | argument[3 + 2 * i]) != 0;
    expect("G_SLICED_VBI_CAP: lines", 33, carrying);
    expect("G_SLICED_VBI_CAP: line 16", 0x0401, argument[34] | (uint32_t)argument[35] << 8);
    expect("G_SLICED_VBI_CAP: line 21", 0x1001, argument[44] | (uint32_t)argument[45] << 8);
    expect("G_SLICED_VBI_CAP: padding", 0, argument[98] | argument[99]);
    expect("G_SLICED_VBI_CAP: type", CAPTIONS, get(argument + 100));
    expect("G_SLICED_VBI_CAP: reserved", 0, get(argument + 104) | get(argument + 108) | get(argument + 112));
    put(argument + 100, PICTURES);
    expect("G_SLICED_VBI_CAP of pictures", 22, request(G_SLICED_VBI_CAP));
    expect("REQBUFS without services", 0, simple(REQBUFS, 4, CAPTIONS, 1, 0, 0));
    expect("REQBUFS without services: count", 0, get(argument));
    expect("S_FMT of captions", 0, simple(S_FMT, CAPTIONS, LOAD, 0, 0, 0));
    expect("S_FMT of captions: type", CAPTIONS, get(argument));
    expect("S_FMT of captions: services", LOAD, get(argument + 4) & 0xffff);
    expect("S_FMT of captions: io_size", 2 * RECORD, get(argument + 104));
    for (i = 0; i < 48; i++) {
        expect("S_FMT of captions: lines", i % 24 == 21 ? LOAD : 0, argument[6 + 2 * i] | (uint32_t)argument[7 + 2 * i] << 8);
        expect("services", i % 24 == 21 ? LOAD : 0, box.device.services[i]);
    }
    expect("S_FMT of type 2", 22, simple(S_FMT, 2, LOAD, 0, 0, 0));
}

/* A run of captions beside one of pictures: the reading comes back, and both films are complete. */
static void both_complete(void)
{
    const struct tg_stream *c = &box.device.captions;
    struct tg_arrived a;
    expect("REQBUFS of captions", 0, simple(REQBUFS, 40, CAPTIONS, 1, 0, 0));
    expect("REQBUFS of captions: count", 8, get(argument));
    expect("captions.granted", 8, c->granted);
    expect("S_FMT of captions with buffers", 16, simple(S_FMT, CAPTIONS, LOAD, 0, 0, 0));
    expect("QBUF of captions", 0, buffer_of(QBUF, CAPTIONS, 3));
    expect("QBUF of captions: type", CAPTIONS, get(argument + 4));
    expect("STREAMON of captions", 0, simple(STREAMON, CAPTIONS, 0, 0, 0, 0));
    expect("verdict of captions", TG_RUNNING, verdict(CAPTIONS));
    expect("verdict of pictures", TG_COMPLETE, verdict(PICTURES));
    expect("QBUF", 0, buffer(QBUF, 0));
    expect("STREAMON", 0, simple(STREAMON, PICTURES, 0, 0, 0, 0));

    record(frame, LOAD, 0, 21, 0x1234);
    a = lines_arrive(RECORD, -5, 999999);
    expect("captions stored", TG_STORED, a.answer);
    expect("captions stored: number", 0, a.number);
    expect("captions stored: buffer", 3, a.buffer);
    expect("captions stored: bytes", 0, (uint64_t)memcmp(lines + 3 * 4096, frame, RECORD));
    expect("captions stored: no more bytes", 0x5A, lines[3 * 4096 + RECORD]);
    expect("captions.used", RECORD, c->used[c->head % 32]);
    expect("DQBUF of captions", 0, buffer_of(DQBUF, CAPTIONS, 0));
    expect("DQBUF of captions: index", 3, get(argument));
    expect("DQBUF of captions: type", CAPTIONS, get(argument + 4));
    expect("DQBUF of captions: bytes used", RECORD, get(argument + 8));
    expect("DQBUF of captions: field", 1, get(argument + 16));
    expect("DQBUF of captions: seconds", (uint32_t)-5, get(argument + 20));
    expect("DQBUF of captions: offset", 3 * 4096, get(argument + 52));
    expect("DQBUF of captions: length", 4096, get(argument + 56));
    expect("the reading", 0x1234, get(lines + get(argument + 52) + 16));
    expect("stored", TG_STORED, arrive(1, IMAGE, 0, 0).answer);
    expect("DQBUF", 0, buffer(DQBUF, 0));
    expect("STREAMOFF of captions", 0, simple(STREAMOFF, CAPTIONS, 0, 0, 0, 0));
    expect("verdict of captions", TG_COMPLETE, verdict(CAPTIONS));
    expect("verdict of pictures", TG_RUNNING, verdict(PICTURES));
    expect("STREAMOFF", 0, simple(STREAMOFF, PICTURES, 0, 0, 0, 0));
    expect("verdict of pictures", TG_COMPLETE, verdict(PICTURES));
    expect("verdict of captions, still", TG_COMPLETE, verdict(CAPTIONS));
}

/* Caption lines with a flaw each: a gap in the captions, while the film of pictures stays complete. */
static void caption_gap(void)
{
    const struct tg_stream *c = &box.device.captions;
    expect("QBUF of captions", 0, buffer_of(QBUF, CAPTIONS, 0));
    expect("QBUF of captions", 0, buffer_of(QBUF, CAPTIONS, 1));
    expect("STREAMON of captions", 0, simple(STREAMON, CAPTIONS, 0, 0, 0, 0));
    record(frame, LOAD, 0, 21, 1);
    record(frame + RECORD, LOAD, 1, 21, 2);
    expect("not a whole record", TG_DAMAGED, lines_arrive(RECORD + 1, 0, 0).answer);
    expect("a time that is none", TG_DAMAGED, lines_arrive(RECORD, 0, 1000000).answer);
    expect("both fields", TG_STORED, lines_arrive(2 * RECORD, 0, 0).answer);
    expect("no record", TG_STORED, lines_arrive(0, 0, 0).answer);
    put(frame + RECORD + 4, 0);
    expect("a line twice", TG_DAMAGED, lines_arrive(2 * RECORD, 0, 0).answer);
    put(frame, 0x0001);
    expect("a service that was not negotiated", TG_DAMAGED, lines_arrive(RECORD, 0, 0).answer);
    expect("captions.damaged", 4, c->damaged);
    expect("captions.accepted", 6, c->accepted);
    expect("captions.next_number", 6, c->next_number);
    expect("DQBUF of captions", 0, buffer_of(DQBUF, CAPTIONS, 0));
    expect("DQBUF of captions: bytes used", 2 * RECORD, get(argument + 8));
    expect("DQBUF of captions: number", 2, get(argument + 44));
    expect("DQBUF of captions", 0, buffer_of(DQBUF, CAPTIONS, 0));
    expect("DQBUF of captions: bytes used", 0, get(argument + 8));
    expect("DQBUF of captions", 11, buffer_of(DQBUF, CAPTIONS, 0));
    expect("STREAMOFF of captions", 0, simple(STREAMOFF, CAPTIONS, 0, 0, 0, 0));
    expect("verdict of captions", TG_GAPS, verdict(CAPTIONS));
    expect("verdict of pictures", TG_COMPLETE, verdict(PICTURES));
}

/* Types that name no stream, and memory that is another stream's. */
static void other_types(void)
{
    struct tg_arrived a = tg_arrival(&box.device, 2, memory, sizeof memory, frame, 0, 0, 0);
    expect("arrival of type 2", TG_REFUSED, a.answer);
    expect("arrival of type 2: number", 22, a.number);
    expect("STREAMON of type 2", 22, simple(STREAMON, 2, 0, 0, 0, 0));
    expect("QUERYBUF of type 2", 22, buffer_of(QUERYBUF, 2, 0));
    expect("CROPCAP of captions", 22, simple(CROPCAP, CAPTIONS, 0, 0, 0, 0));
    expect("verdict of type 5", TG_BLANK, verdict(5));
    a = tg_arrival(&box.device, CAPTIONS, memory, sizeof memory, frame, 0, 0, 0);
    expect("captions with the picture memory", 14, a.number);
    expect("captions.length", LINES, box.device.captions.length);
}

/* A run that is on in a stream is made so old that it has accepted so many arrivals, the new ones all handed over. */
static void grow_old(struct tg_stream *s, uint64_t accepted)
{
    s->handed += accepted - s->accepted;
    s->accepted = accepted;
    s->next_number = accepted & 0xffffffffu;
}

/* A whole frame arrives at a stream and is handed over, both with this number. */
static void passes(uint32_t type, uint32_t number)
{
    struct tg_arrived a;
    expect("old run: QBUF", 0, buffer_of(QBUF, type, 2));
    a = type == PICTURES ? arrive(1, IMAGE, 0, 0) : lines_arrive(0, 0, 0);
    expect("old run: stored", TG_STORED, a.answer);
    expect("old run: number", number, a.number);
    expect("old run: QUERYBUF", 0, buffer_of(QUERYBUF, type, 2));
    expect("old run: QUERYBUF: number", number, get(argument + 44));
    expect("old run: DQBUF", 0, buffer_of(DQBUF, type, 0));
    expect("old run: DQBUF: number", number, get(argument + 44));
}

/* The numbers of a run go back to 0, and the run goes on; at its limit it takes no more, and its film is complete. */
static void old_run(struct tg_stream *s, uint32_t type)
{
    struct tg_device before;
    struct tg_arrived a;
    expect("old run: STREAMON", 0, simple(STREAMON, type, 0, 0, 0, 0));
    passes(type, 0);
    grow_old(s, 4294967294u);
    passes(type, 4294967294u);
    passes(type, 4294967295u);
    passes(type, 0);
    passes(type, 1);
    expect("old run: accepted", 4294967298u, s->accepted);
    expect("old run: next_number", 2, s->next_number);
    grow_old(s, 9223372036854775806u);
    passes(type, 4294967294u);
    memcpy(&before, &box.device, sizeof before);
    a = type == PICTURES ? arrive(1, IMAGE, 0, 0) : lines_arrive(0, 0, 0);
    expect("old run: refused", TG_REFUSED, a.answer);
    expect("old run: refused: number", 75, a.number);
    expect("old run: refused: device", 0, (uint64_t)memcmp(&before, &box.device, sizeof before));
    expect("old run: STREAMOFF", 0, simple(STREAMOFF, type, 0, 0, 0, 0));
    expect("old run: accepted", 9223372036854775807u, s->accepted);
    expect("old run: verdict", TG_COMPLETE, verdict(type));
    expect("old run: STREAMON", 0, simple(STREAMON, type, 0, 0, 0, 0));
    passes(type, 0);
    expect("old run: STREAMOFF", 0, simple(STREAMOFF, type, 0, 0, 0, 0));
}

/* The flags that a call tells of the buffer that is mapped. */
static void told(int call, uint32_t type, uint32_t flags)
{
    expect("mapped: call", 0, buffer_of(call, type, 1));
    expect("mapped: index", 1, get(argument));
    expect("mapped: flags", flags, get(argument + 12));
}

/* Maps that are refused, and change nothing. */
static void not_mapped(const struct tg_stream *s, uint32_t type, uint32_t slot)
{
    struct tg_device before;
    memcpy(&before, &box.device, sizeof before);
    expect("map of type 2", 22, tg_map(&box.device, 2, slot, slot));
    expect("map beside a slot", 22, tg_map(&box.device, type, slot + 1, slot));
    expect("map of another length", 22, tg_map(&box.device, type, slot, slot - 1));
    expect("map of what is not granted", 22, tg_map(&box.device, type, (uint32_t)s->granted * slot, slot));
    expect("unmap of another length", 22, tg_unmap(&box.device, type, slot, slot + 1));
    expect("unmap without a map", 22, tg_unmap(&box.device, type, slot, slot));
    expect("refused maps: device", 0, (uint64_t)memcmp(&before, &box.device, sizeof before));
}

/* The second buffer of a stream is mapped as often as it can be, goes through a run, and stands in the way of REQBUFS until the
 * last of its maps is taken off. */
static void map(const struct tg_stream *s, uint32_t type, uint32_t slot)
{
    uint32_t i, granted = (uint32_t)s->granted;
    not_mapped(s, type, slot);
    told(QUERYBUF, type, 0);
    for (i = 1; i <= 255; i++) {
        expect("map", 0, tg_map(&box.device, type, slot, slot));
        expect("maps", i, s->maps[1]);
    }
    expect("map once more", 75, tg_map(&box.device, type, slot, slot));
    for (i = 0; i < 32; i++) expect("maps", i == 1 ? 255 : 0, s->maps[i]);
    told(QUERYBUF, type, 1);
    told(QBUF, type, 3);
    expect("mapped: STREAMON", 0, simple(STREAMON, type, 0, 0, 0, 0));
    expect("mapped: stored", 1, (type == PICTURES ? arrive(1, IMAGE, 0, 0) : lines_arrive(0, 0, 0)).buffer);
    told(QUERYBUF, type, 5);
    expect("mapped: REQBUFS 0 in a run", 16, simple(REQBUFS, 0, type, 1, 0, 0));
    expect("mapped: verdict", TG_RUNNING, verdict(type));
    told(DQBUF, type, 1);
    expect("mapped: STREAMOFF", 0, simple(STREAMOFF, type, 0, 0, 0, 0));
    expect("mapped: verdict", TG_COMPLETE, verdict(type));
    for (i = 255; i > 0; i--) {
        told(QUERYBUF, type, 1);
        expect("mapped: REQBUFS 0", 16, simple(REQBUFS, 0, type, 1, 0, 0));
        expect("mapped: REQBUFS", 16, simple(REQBUFS, granted, type, 1, 0, 0));
        expect("mapped: granted", granted, s->granted);
        expect("unmap", 0, tg_unmap(&box.device, type, slot, slot));
        expect("maps", i - 1, s->maps[1]);
    }
    not_mapped(s, type, slot);
    told(QUERYBUF, type, 0);
    expect("unmapped: REQBUFS", 0, simple(REQBUFS, granted, type, 1, 0, 0));
}

/* What is lent to the packing, one byte in: the byte before and all that are behind stay as they were. */
static uint8_t packed[1 + 1552 + 1], read_back[1 + 36 * RECORD + 1];

static void clear(void)
{
    memset(packed, 0xEE, sizeof packed);
    memset(read_back, 0xEE, sizeof read_back);
}

/* So many bytes were written, and none beside them. */
static void wrote(const char *what, const uint8_t *output, size_t size, size_t length)
{
    size_t i;
    expect(what, 0xEE, output[0]);
    for (i = 1 + length; i < size; i++) expect(what, 0xEE, output[i]);
}

/* The load line packed, byte by byte, and read back: what is not carried comes back as zero. */
static void pack_load(void)
{
    static const uint8_t head[15] = {'i', 't', 'v', '0', 0, 0x80, 0, 0, 0, 0, 0, 0, 4, 0x34, 0x12};
    uint8_t expected[RECORD];
    int i;
    clear();
    expect("length of no line", 12, tg_vbi_block_length(0));
    expect("length of a line", 55, tg_vbi_block_length(1));
    expect("length of 35 lines", 1517, tg_vbi_block_length(35));
    expect("length of all lines", 1552, tg_vbi_block_length(36));
    expect("length of more lines", 0, tg_vbi_block_length(37));
    record(frame, LOAD, 0, 21, 0x1234);
    memcpy(expected, frame, RECORD);
    put(frame + 12, 0xA5A5A5A5u);
    memset(frame + 18, 0xA5, RECORD - 18);
    expect("pack", 0, tg_vbi_pack(frame, RECORD, packed + 1, 55));
    wrote("pack: bytes outside", packed, sizeof packed, 55);
    for (i = 0; i < 55; i++) expect("pack: bytes", i < 15 ? head[i] : 0, packed[1 + i]);
    expect("unpack", 0, tg_vbi_unpack(packed + 1, 55, read_back + 1, RECORD));
    wrote("unpack: bytes outside", read_back, sizeof read_back, RECORD);
    expect("unpack: bytes", 0, (uint64_t)memcmp(read_back + 1, expected, RECORD));
    expect("pack no line", 0, tg_vbi_pack(frame, 0, packed + 1, 12));
    expect("pack no line: masks", 0, get(packed + 5) | get(packed + 9));
    expect("unpack no line", 0, tg_vbi_unpack(packed + 1, 12, read_back + 1, 0));
}

/* A refusal of either writes nothing. */
static void pack_refused(void)
{
    uint8_t block[56];
    record(frame, LOAD, 0, 21, 0x1234);
    record(frame + RECORD, 0x0001, 0, 21, 0);
    expect("pack", 0, tg_vbi_pack(frame, RECORD, block, 55));
    clear();
    expect("pack a line twice", 22, tg_vbi_pack(frame, 2 * RECORD, packed + 1, 98));
    expect("pack part of a record", 22, tg_vbi_pack(frame, RECORD + 1, packed + 1, 55));
    expect("pack into too little", 22, tg_vbi_pack(frame, RECORD, packed + 1, 54));
    put(frame + 8, 24);
    expect("pack line 24", 22, tg_vbi_pack(frame, RECORD, packed + 1, 55));
    record(frame, 0x1001, 0, 21, 0);
    expect("pack two services", 22, tg_vbi_pack(frame, RECORD, packed + 1, 55));
    wrote("pack refused", packed, sizeof packed, 0);
    block[55] = 0;
    expect("unpack with a byte at the end", 22, tg_vbi_unpack(block, 56, read_back + 1, RECORD));
    expect("unpack into too much", 22, tg_vbi_unpack(block, 55, read_back + 1, RECORD + 1));
    block[54] = 1;
    expect("unpack what is not zeroed", 22, tg_vbi_unpack(block, 55, read_back + 1, RECORD));
    block[54] = 0;
    block[12] = 2;
    expect("unpack an unknown identifier", 22, tg_vbi_unpack(block, 55, read_back + 1, RECORD));
    wrote("unpack refused", read_back, sizeof read_back, 0);
}

/* All lines, the last one first. */
static void pack_all(void)
{
    uint32_t i;
    clear();
    for (i = 0; i < 36; i++) record(frame + (35 - i) * RECORD, 0x0001, i / 18, 6 + i % 18, (uint16_t)(i + 1));
    expect("pack all", 0, tg_vbi_pack(frame, 36 * RECORD, packed + 1, 1552));
    wrote("pack all: bytes outside", packed, sizeof packed, 1552);
    expect("pack all: opening", 0, (uint64_t)memcmp(packed + 1, "ITV0", 4));
    for (i = 0; i < 36; i++) expect("pack all: lines", 1 | (i + 1) << 8, get(packed + 5 + 43 * i));
    expect("unpack all", 0, tg_vbi_unpack(packed + 1, 1552, read_back + 1, 36 * RECORD));
    wrote("unpack all: bytes outside", read_back, sizeof read_back, 36 * RECORD);
    for (i = 0; i < 36; i++) {
        expect("unpack all: lines", 0, (uint64_t)memcmp(read_back + 1 + i * RECORD, frame + (35 - i) * RECORD, RECORD));
    }
    memcpy(packed + 1, "itv0", 4);
    expect("unpack all behind the other opening", 22, tg_vbi_unpack(packed + 1, 1552, read_back + 1, 36 * RECORD));
}

int main(void)
{
    int i;
    memset(lines, 0x5A, sizeof lines);
    sizes();
    closed();
    opening();
    settings();
    fill();
    go_on();
    go_round();
    negotiate();
    both_complete();
    caption_gap();
    other_types();
    old_run(&box.device.video, PICTURES);
    old_run(&box.device.captions, CAPTIONS);
    map(&box.device.video, PICTURES, SLOT);
    map(&box.device.captions, CAPTIONS, 4096);
    unused();
    outside_a_run();
    planes();
    pack_load();
    pack_refused();
    pack_all();
    for (i = 0; i < GUARD; i++) expect("guards", 0xA5A5, (uint64_t)box.before[i] << 8 | box.behind[i]);
    if (failures) printf("%d failures\n", failures);
    else printf("the header and the library agree\n");
    return failures != 0;
}
