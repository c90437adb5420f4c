/* Whole transfers in plain C: a client (the master), a server (the node), its dictionary, and a line of two rings between
 * them, with the checks, the verdicts, the times and the reports of the proved stack. Nothing here is taken from the proved
 * code. Compiled with TRACED it is the same code with a line that keeps what was sent, as the comparison needs it. */
#include "plain.h"

void *memcpy(void *to, const void *from, usize length);

enum {
    LONGEST = 1024,      /* bytes of a value */
    RING = 130,          /* frames each way */
    BUFFER = 147 * 7,    /* bytes of a server's buffer */
    ENTRIES = 64,        /* entries of a dictionary */
    ROOM = 4096,         /* bytes of a dictionary */
    CLIENT_PATIENCE = 10,
    SERVER_PATIENCE = 25,
    REST = 30,
    SHORT_SUB_BLOCKS = 8,
    MOST_FRAMES = 300,
    MOST_ROUNDS = 13000,
};

enum code {
    TOGGLE_NOT_ALTERNATED = 0x05030000,
    TIMED_OUT = 0x05040000,
    UNKNOWN_COMMAND = 0x05040001,
    INVALID_BLOCK_SIZE = 0x05040002,
    INVALID_SEQUENCE_NUMBER = 0x05040003,
    CRC_ERROR = 0x05040004,
    OUT_OF_MEMORY = 0x05040005,
    WRITE_ONLY = 0x06010001,
    READ_ONLY = 0x06010002,
    NO_OBJECT = 0x06020000,
    LENGTH_MISMATCH = 0x06070010,
    LENGTH_TOO_HIGH = 0x06070012,
    LENGTH_TOO_LOW = 0x06070013,
    NO_SUBINDEX = 0x06090011,
    INVALID_VALUE = 0x06090030,
    GENERAL_ERROR = 0x08000000,
};

struct multiplexor {
    u16 index;
    u8 subindex;
};

static int same(struct multiplexor a, struct multiplexor b) { return a.index == b.index && a.subindex == b.subindex; }

/* Frames and the line. */

struct frame {
    u16 identifier;
    u8 bytes[8];
};

struct ring {
    struct frame frames[RING];
    unsigned first, count;
};

struct line {
    struct ring to_node, to_master;
    u8 lost;
#ifdef TRACED
    u8 *trace;
    usize traced;
#endif
};

static void ring_add(struct line *line, struct ring *ring, struct frame frame)
{
#ifdef TRACED
    line->trace[line->traced++] = ring == &line->to_node;
    line->trace[line->traced++] = (u8)frame.identifier;
    line->trace[line->traced++] = (u8)(frame.identifier >> 8);
    memcpy(line->trace + line->traced, frame.bytes, 8);
    line->traced += 8;
#endif
    if (ring->count == RING) {
        line->lost = 1;
        return;
    }
    unsigned place = ring->first + ring->count;
    if (place >= RING)
        place -= RING;
    ring->frames[place] = frame;
    ring->count++;
}

static int ring_take(struct ring *ring, struct frame *frame)
{
    if (ring->count == 0)
        return 0;
    *frame = ring->frames[ring->first];
    if (++ring->first == RING)
        ring->first = 0;
    ring->count--;
    return 1;
}

static void line_quiet(struct line *line)
{
    line->to_node.count = 0;
    line->to_master.count = 0;
    line->lost = 0;
}

/* Fields of frames. */

static u32 word(const u8 *b) { return (u32)b[4] | (u32)b[5] << 8 | (u32)b[6] << 16 | (u32)b[7] << 24; }

static struct multiplexor multiplexor(const u8 *b)
{
    struct multiplexor m = {(u16)(b[1] | b[2] << 8), b[3]};
    return m;
}

static struct frame bare(u16 identifier, u8 command)
{
    struct frame f = {identifier, {command}};
    return f;
}

static struct frame message(u16 identifier, u8 command, struct multiplexor m, u32 word)
{
    struct frame f = {identifier,
                      {command, (u8)m.index, (u8)(m.index >> 8), m.subindex, (u8)word, (u8)(word >> 8), (u8)(word >> 16),
                       (u8)(word >> 24)}};
    return f;
}

/* The dictionary. */

enum { READS = 1, WRITES = 2 };

struct row {
    struct multiplexor at;
    u8 access;
    u16 shortest, longest;
    usize start, length;
};

struct table {
    struct row rows[ENTRIES];
    usize count;
    u8 bytes[ROOM];
    usize used;
};

static u32 key(struct multiplexor m) { return (u32)m.index << 8 | m.subindex; }

static int table_add(struct table *t, struct multiplexor at, u8 access, u16 shortest, u16 longest, const u8 *value,
                     usize length)
{
    if (t->count == ENTRIES || (t->count && key(t->rows[t->count - 1].at) >= key(at)) || shortest < 1 ||
        shortest > longest || longest > LONGEST || length < shortest || length > longest || ROOM - t->used < longest)
        return 0;
    struct row row = {at, access, shortest, longest, t->used, length};
    memcpy(t->bytes + t->used, value, length);
    t->used += longest;
    t->rows[t->count++] = row;
    return 1;
}

/* The row at a multiplexor; without one the code that says why. */
static struct row *table_find(struct table *t, struct multiplexor m, u32 *code)
{
    usize low = 0, high = t->count;
    while (low < high) {
        usize middle = low + (high - low) / 2;
        if (key(t->rows[middle].at) < key(m))
            low = middle + 1;
        else
            high = middle;
    }
    if (low < t->count && same(t->rows[low].at, m))
        return &t->rows[low];
    *code = NO_OBJECT;
    for (usize i = 0; i < t->count; i++)
        if (t->rows[i].at.index == m.index)
            *code = NO_SUBINDEX;
    return 0;
}

/* What speaks against a write to a row, where its length counts; 0 for nothing. */
static u32 objection(const struct row *row, int has_length, usize length)
{
    if (!(row->access & WRITES))
        return READ_ONLY;
    if (has_length && length < row->shortest)
        return LENGTH_TOO_LOW;
    if (has_length && length > row->longest)
        return LENGTH_TOO_HIGH;
    return 0;
}

static u32 table_check_start(struct table *t, struct multiplexor m, int has_size, u32 size)
{
    u32 code;
    struct row *row = table_find(t, m, &code);
    return row ? objection(row, has_size, size) : code;
}

static u32 table_set(struct table *t, struct multiplexor m, const u8 *value, usize length)
{
    u32 code;
    struct row *row = table_find(t, m, &code);
    if (!row)
        return code;
    code = objection(row, 1, length);
    if (code)
        return code;
    memcpy(t->bytes + row->start, value, length);
    row->length = length;
    return 0;
}

static u32 table_get(struct table *t, struct multiplexor m, u8 *buffer, usize room, usize *length)
{
    u32 code;
    struct row *row = table_find(t, m, &code);
    if (!row)
        return code;
    if (!(row->access & READS))
        return WRITE_ONLY;
    if (room < row->length)
        return OUT_OF_MEMORY;
    memcpy(buffer, t->bytes + row->start, row->length);
    *length = row->length;
    return 0;
}

static void table_sample(struct table *t)
{
    t->count = 0;
    t->used = 0;
    table_add(t, (struct multiplexor){0x1000, 0}, READS, 4, 4, (const u8[]){0x92, 0x01, 0x02, 0x00}, 4);
    table_add(t, (struct multiplexor){0x1008, 0}, READS, 1, 16, (const u8 *)"loader", 6);
    table_add(t, (struct multiplexor){0x2000, 1}, READS | WRITES, 2, 2, (const u8[]){0x0a, 0x00}, 2);
    table_add(t, (struct multiplexor){0x2001, 0}, READS | WRITES, 1, LONGEST, (const u8[]){0x00}, 1);
}

/* The server. */

enum doing { IDLE, DOWNLOAD, UPLOAD, BLOCK_DOWNLOAD, BLOCK_END };

enum served { NO_REQUEST, COMMITTED, ABORTED, ANSWERED, DROPPED, KEPT };

struct server {
    u8 number, block_size;
    u8 doing;
    u8 has_size;
    u8 crc_offer;
    u8 toggle;
    u8 expected;
    u8 spoiled;
    struct multiplexor at;
    u32 size;
    usize given;
    usize length;
    u8 ticks;
    u16 commits;
    u8 buffer[BUFFER];
};

/* The ends, the line and the dictionary. */
struct bench;
static void to_master(struct bench *b, struct frame frame);
static void to_node(struct bench *b, struct frame frame);
static struct table *dictionary(struct bench *b);

static u16 answers(const struct server *s) { return 0x580 + s->number; }

static enum served server_refuse(struct server *s, struct bench *b, struct multiplexor m, u32 code)
{
    s->doing = IDLE;
    to_master(b, message(answers(s), 0x80, m, code));
    return ABORTED;
}

static struct multiplexor server_named(const struct server *s)
{
    return s->doing == IDLE ? (struct multiplexor){0, 0} : s->at;
}

static enum served server_unexpected(struct server *s, struct bench *b)
{
    return server_refuse(s, b, server_named(s), UNKNOWN_COMMAND);
}

static enum served server_commit(struct server *s, struct bench *b, struct multiplexor m, struct frame answer)
{
    u32 code = table_set(dictionary(b), m, s->buffer, s->length);
    if (code)
        return server_refuse(s, b, m, code);
    s->commits++;
    s->doing = IDLE;
    to_master(b, answer);
    return COMMITTED;
}

static enum served server_complete(struct server *s, struct bench *b, struct frame answer)
{
    if (s->has_size && s->size != s->length)
        return server_refuse(s, b, s->at, LENGTH_MISMATCH);
    return server_commit(s, b, s->at, answer);
}

static enum served server_start_download(struct server *s, struct bench *b, const u8 *bytes)
{
    struct multiplexor m = multiplexor(bytes);
    struct frame answer = message(answers(s), 0x60, m, 0);
    if (bytes[0] & 2) {
        s->length = bytes[0] & 1 ? 4 - (bytes[0] >> 2 & 3) : 4;
        memcpy(s->buffer, bytes + 4, s->length);
        return server_commit(s, b, m, answer);
    }
    u8 has_size = bytes[0] & 1;
    u32 size = word(bytes);
    u32 code = table_check_start(dictionary(b), m, has_size, size);
    if (code)
        return server_refuse(s, b, m, code);
    s->doing = DOWNLOAD;
    s->at = m;
    s->has_size = has_size;
    s->size = size;
    s->toggle = 0;
    s->length = 0;
    to_master(b, answer);
    return ANSWERED;
}

static enum served server_download_segment(struct server *s, struct bench *b, const u8 *bytes)
{
    if (s->doing != DOWNLOAD)
        return server_unexpected(s, b);
    u8 toggle = bytes[0] >> 4 & 1;
    usize length = 7 - (bytes[0] >> 1 & 7);
    if (toggle != s->toggle)
        return server_refuse(s, b, s->at, TOGGLE_NOT_ALTERNATED);
    if (s->length + length > LONGEST)
        return server_refuse(s, b, s->at, LENGTH_TOO_HIGH);
    memcpy(s->buffer + s->length, bytes + 1, length);
    s->length += length;
    struct frame answer = bare(answers(s), (u8)(0x20 | toggle << 4));
    if (bytes[0] & 1)
        return server_complete(s, b, answer);
    s->toggle = !toggle;
    to_master(b, answer);
    return ANSWERED;
}

static enum served server_start_upload(struct server *s, struct bench *b, const u8 *bytes)
{
    struct multiplexor m = multiplexor(bytes);
    usize length;
    u32 code = table_get(dictionary(b), m, s->buffer, BUFFER, &length);
    if (code)
        return server_refuse(s, b, m, code);
    s->length = length;
    if (length >= 1 && length <= 4) {
        u32 value = 0;
        for (usize i = 0; i < length; i++)
            value |= (u32)s->buffer[i] << 8 * i;
        s->doing = IDLE;
        to_master(b, message(answers(s), (u8)(0x43 | (4 - length) << 2), m, value));
        return ANSWERED;
    }
    s->doing = UPLOAD;
    s->at = m;
    s->toggle = 0;
    s->given = 0;
    to_master(b, message(answers(s), 0x41, m, (u32)length));
    return ANSWERED;
}

static enum served server_upload_segment(struct server *s, struct bench *b, const u8 *bytes)
{
    if (s->doing != UPLOAD)
        return server_unexpected(s, b);
    u8 toggle = bytes[0] >> 4 & 1;
    if (toggle != s->toggle)
        return server_refuse(s, b, s->at, TOGGLE_NOT_ALTERNATED);
    usize left = s->length - s->given;
    usize length = left < 7 ? left : 7;
    struct frame answer = bare(answers(s), (u8)(toggle << 4 | (7 - length) << 1 | (left <= 7)));
    memcpy(answer.bytes + 1, s->buffer + s->given, length);
    if (left <= 7) {
        s->doing = IDLE;
    } else {
        s->given += 7;
        s->toggle = !toggle;
    }
    to_master(b, answer);
    return ANSWERED;
}

static void server_next_sub_block(struct server *s, struct bench *b, struct frame answer)
{
    s->doing = BLOCK_DOWNLOAD;
    s->expected = 1;
    s->spoiled = 0;
    to_master(b, answer);
}

static struct frame server_acknowledgement(const struct server *s, u8 last_kept)
{
    struct frame f = {answers(s), {0xa2, last_kept, s->block_size}};
    return f;
}

static enum served server_start_block(struct server *s, struct bench *b, const u8 *bytes)
{
    struct multiplexor m = multiplexor(bytes);
    u8 has_size = bytes[0] >> 1 & 1;
    u32 size = word(bytes);
    u32 code = table_check_start(dictionary(b), m, has_size, size);
    if (code)
        return server_refuse(s, b, m, code);
    s->at = m;
    s->has_size = has_size;
    s->size = size;
    s->crc_offer = bytes[0] >> 2 & 1;
    s->length = 0;
    server_next_sub_block(s, b, message(answers(s), 0xa4, m, s->block_size));
    return ANSWERED;
}

static enum served server_block_segment(struct server *s, struct bench *b, const u8 *bytes)
{
    if (bytes[0] == 0x80) {
        s->doing = IDLE;
        return ABORTED;
    }
    u8 last = bytes[0] >> 7;
    u8 number = bytes[0] & 0x7f;
    u8 ends = last || number == s->block_size;
    if (!s->spoiled && number != s->expected) {
        if (!ends)
            return DROPPED;
        server_next_sub_block(s, b, server_acknowledgement(s, s->expected - 1));
        return ANSWERED;
    }
    if (s->spoiled || s->length + 7 > BUFFER) {
        if (ends)
            return server_refuse(s, b, s->at, LENGTH_TOO_HIGH);
        s->spoiled = 1;
        return DROPPED;
    }
    memcpy(s->buffer + s->length, bytes + 1, 7);
    s->length += 7;
    if (last) {
        s->doing = BLOCK_END;
        to_master(b, server_acknowledgement(s, number));
        return ANSWERED;
    }
    if (number == s->block_size) {
        server_next_sub_block(s, b, server_acknowledgement(s, number));
        return ANSWERED;
    }
    s->expected = number + 1;
    return KEPT;
}

static enum served server_end_block(struct server *s, struct bench *b, const u8 *bytes)
{
    if (s->doing != BLOCK_END)
        return server_unexpected(s, b);
    usize unused = bytes[0] >> 2 & 7;
    s->length = s->length > unused ? s->length - unused : 0;
    u16 crc = (u16)(bytes[1] | bytes[2] << 8);
    if (s->crc_offer && crc != plain_crc(s->buffer, s->length))
        return server_refuse(s, b, s->at, CRC_ERROR);
    return server_complete(s, b, bare(answers(s), 0xa1));
}

static enum served server_abort(struct server *s)
{
    if (s->doing == IDLE)
        return DROPPED;
    s->doing = IDLE;
    return ABORTED;
}

static enum served server_take(struct server *s, struct bench *b, const struct frame *frame)
{
    s->ticks = 0;
    if (frame->identifier != 0x600 + s->number)
        return DROPPED;
    const u8 *bytes = frame->bytes;
    if (s->doing == BLOCK_DOWNLOAD)
        return server_block_segment(s, b, bytes);
    switch (bytes[0] >> 5) {
    case 0:
        return server_download_segment(s, b, bytes);
    case 1:
        return server_start_download(s, b, bytes);
    case 2:
        return server_start_upload(s, b, bytes);
    case 3:
        return server_upload_segment(s, b, bytes);
    case 4:
        return server_abort(s);
    case 6:
        return bytes[0] & 1 ? server_end_block(s, b, bytes) : server_start_block(s, b, bytes);
    default:
        return server_unexpected(s, b);
    }
}

static void server_tick(struct server *s, struct bench *b)
{
    if (s->doing == IDLE)
        return;
    if (s->ticks < SERVER_PATIENCE - 1) {
        s->ticks++;
        return;
    }
    s->ticks = 0;
    server_refuse(s, b, s->at, TIMED_OUT);
}

/* The client. */

enum phase { CLEARED, OPEN, OVER };

enum awaiting {
    EXPEDITED_DOWNLOAD_ANSWER,
    DOWNLOAD_ANSWER,
    DOWNLOAD_SEGMENT_ANSWER,
    UPLOAD_ANSWER,
    UPLOAD_SEGMENT_ANSWER,
    BLOCK_ANSWER,
    ACKNOWLEDGEMENT,
    BLOCK_END_ANSWER,
};

enum heard { NO_ANSWER, FOREIGN, ENDED, SENT };

enum refusal { NOT_CLEARED = 1, RESTING, ALL_BEGUN, VALUE_LENGTH, NOT_EXPEDITED, NOT_OUT, SHORT_BUFFER };

enum method { EXPEDITED, SEGMENTED, BLOCK };

enum direction { READING, WRITING };

struct client {
    u8 node;
    u8 phase;
    u8 awaiting;
    u8 direction;
    u8 ticks;
    u8 rest;
    u8 toggle;      /* of the segment that was sent or asked for */
    u8 has_size;    /* of a read, as it was announced */
    u8 crc_offer;
    u8 count;       /* segments of the sub-block that was sent */
    u8 short_ones;  /* sub-blocks that were acknowledged in part */
    u8 failed, by_node, may_be_set;
    u16 begun;
    u16 number;     /* of the segment that was sent */
    u16 acknowledged;
    u16 highest;
    struct multiplexor at;
    u32 size;
    u32 code;
    usize length;
    u8 value[LONGEST];
};

static u16 requests(const struct client *c) { return 0x600 + c->node; }

static int is_last(const struct client *c, usize number) { return c->length <= 7 * number; }

static void quiet(struct bench *b);

static void client_fail(struct client *c, u32 code, u8 by_node, u8 may_be_set)
{
    c->phase = OVER;
    c->failed = 1;
    c->code = code;
    c->by_node = by_node;
    c->may_be_set = may_be_set;
    c->rest = REST;
}

static enum heard client_abandon(struct client *c, struct bench *b, u32 code)
{
    u8 may_be_set = c->awaiting == EXPEDITED_DOWNLOAD_ANSWER || c->awaiting == BLOCK_END_ANSWER ||
                    (c->awaiting == DOWNLOAD_SEGMENT_ANSWER && is_last(c, c->number));
    client_fail(c, code, 0, may_be_set);
    quiet(b);
    to_node(b, message(requests(c), 0x80, c->at, code));
    return ENDED;
}

static enum heard client_succeed(struct client *c)
{
    c->phase = OVER;
    c->failed = 0;
    return ENDED;
}

static enum heard client_send(struct client *c, struct bench *b, u8 awaiting, struct frame frame)
{
    c->awaiting = awaiting;
    c->ticks = 0;
    to_node(b, frame);
    return SENT;
}

static enum heard client_send_segment(struct client *c, struct bench *b, u8 toggle, u16 number)
{
    usize start = 7 * (usize)(number - 1);
    usize left = c->length - start;
    usize length = left < 7 ? left : 7;
    struct frame f = bare(requests(c), (u8)(toggle << 4 | (7 - length) << 1 | is_last(c, number)));
    memcpy(f.bytes + 1, c->value + start, length);
    c->toggle = toggle;
    c->number = number;
    c->highest = number;
    return client_send(c, b, DOWNLOAD_SEGMENT_ANSWER, f);
}

static enum heard client_ask_segment(struct client *c, struct bench *b, u8 toggle)
{
    c->toggle = toggle;
    if (c->highest < 65535)
        c->highest++;
    return client_send(c, b, UPLOAD_SEGMENT_ANSWER, bare(requests(c), (u8)(0x60 | toggle << 4)));
}

static enum heard client_go_on(struct client *c, struct bench *b, u8 block_size, usize acknowledged)
{
    usize segments = (c->length + 6) / 7;
    if (segments <= acknowledged) {
        u16 crc = c->crc_offer ? plain_crc(c->value, c->length) : 0;
        struct frame f = {requests(c), {(u8)(0xc1 | (7 * segments - c->length) << 2), (u8)crc, (u8)(crc >> 8)}};
        return client_send(c, b, BLOCK_END_ANSWER, f);
    }
    usize left = segments - acknowledged;
    usize count = left < block_size ? left : block_size;
    c->acknowledged = (u16)acknowledged;
    c->count = (u8)count;
    if (c->highest < acknowledged + count)
        c->highest = (u16)(acknowledged + count);
    c->awaiting = ACKNOWLEDGEMENT;
    c->ticks = 0;
    for (usize number = 1; number <= count; number++) {
        usize start = 7 * (acknowledged + number - 1);
        usize rest = c->length - start;
        struct frame f = bare(requests(c), (u8)(number | (rest <= 7 ? 0x80 : 0)));
        memcpy(f.bytes + 1, c->value + start, rest < 7 ? rest : 7);
        to_node(b, f);
    }
    return SENT;
}

static enum heard client_start_blocks(struct client *c, struct bench *b, const u8 *bytes)
{
    if (c->awaiting != BLOCK_ANSWER || !same(multiplexor(bytes), c->at))
        return client_abandon(c, b, UNKNOWN_COMMAND);
    if (bytes[4] < 1 || bytes[4] > 127)
        return client_abandon(c, b, INVALID_BLOCK_SIZE);
    c->crc_offer = bytes[0] >> 2 & 1;
    c->short_ones = 0;
    return client_go_on(c, b, bytes[4], 0);
}

static enum heard client_acknowledge(struct client *c, struct bench *b, const u8 *bytes)
{
    u8 last_kept = bytes[1], block_size = bytes[2];
    if (c->awaiting != ACKNOWLEDGEMENT)
        return client_abandon(c, b, UNKNOWN_COMMAND);
    if (block_size < 1 || block_size > 127)
        return client_abandon(c, b, INVALID_BLOCK_SIZE);
    if (last_kept > c->count || (last_kept < c->count && c->short_ones == SHORT_SUB_BLOCKS))
        return client_abandon(c, b, INVALID_SEQUENCE_NUMBER);
    if (last_kept < c->count)
        c->short_ones++;
    return client_go_on(c, b, block_size, (usize)c->acknowledged + last_kept);
}

static enum heard client_download_segment(struct client *c, struct bench *b, const u8 *bytes)
{
    if (c->awaiting != DOWNLOAD_SEGMENT_ANSWER)
        return client_abandon(c, b, UNKNOWN_COMMAND);
    if ((bytes[0] >> 4 & 1) != c->toggle)
        return client_abandon(c, b, TOGGLE_NOT_ALTERNATED);
    if (is_last(c, c->number))
        return client_succeed(c);
    return client_send_segment(c, b, !c->toggle, c->number + 1);
}

static enum heard client_start_reading(struct client *c, struct bench *b, const u8 *bytes)
{
    if (c->awaiting != UPLOAD_ANSWER || !same(multiplexor(bytes), c->at))
        return client_abandon(c, b, UNKNOWN_COMMAND);
    if (bytes[0] & 2) {
        c->length = bytes[0] & 1 ? 4 - (bytes[0] >> 2 & 3) : 4;
        memcpy(c->value, bytes + 4, c->length);
        return client_succeed(c);
    }
    c->has_size = bytes[0] & 1;
    c->size = word(bytes);
    if (c->has_size && (c->size < 1 || c->size > LONGEST))
        return client_abandon(c, b, OUT_OF_MEMORY);
    c->length = 0;
    return client_ask_segment(c, b, 0);
}

static enum heard client_upload_segment(struct client *c, struct bench *b, const u8 *bytes)
{
    if (c->awaiting != UPLOAD_SEGMENT_ANSWER)
        return client_abandon(c, b, UNKNOWN_COMMAND);
    if ((bytes[0] >> 4 & 1) != c->toggle)
        return client_abandon(c, b, TOGGLE_NOT_ALTERNATED);
    usize length = 7 - (bytes[0] >> 1 & 7);
    usize total = c->length + length;
    u8 last = bytes[0] & 1;
    if (total > LONGEST || (last && total < 1))
        return client_abandon(c, b, OUT_OF_MEMORY);
    if (last && c->has_size && c->size != total)
        return client_abandon(c, b, LENGTH_MISMATCH);
    memcpy(c->value + c->length, bytes + 1, length);
    c->length = total;
    return last ? client_succeed(c) : client_ask_segment(c, b, !c->toggle);
}

static enum heard client_download_answer(struct client *c, struct bench *b, const u8 *bytes)
{
    if (same(multiplexor(bytes), c->at)) {
        if (c->awaiting == EXPEDITED_DOWNLOAD_ANSWER)
            return client_succeed(c);
        if (c->awaiting == DOWNLOAD_ANSWER)
            return client_send_segment(c, b, 0, 1);
    }
    return client_abandon(c, b, UNKNOWN_COMMAND);
}

static enum heard client_take(struct client *c, struct bench *b, const struct frame *frame)
{
    if (c->phase != OPEN || frame->identifier != 0x580 + c->node)
        return FOREIGN;
    const u8 *bytes = frame->bytes;
    switch (bytes[0] >> 5) {
    case 0:
        return client_upload_segment(c, b, bytes);
    case 1:
        return client_download_segment(c, b, bytes);
    case 2:
        return client_start_reading(c, b, bytes);
    case 3:
        return client_download_answer(c, b, bytes);
    case 4:
        client_fail(c, word(bytes), 1, 0);
        quiet(b);
        return ENDED;
    case 5:
        switch (bytes[0] & 3) {
        case 0:
            return client_start_blocks(c, b, bytes);
        case 1:
            return c->awaiting == BLOCK_END_ANSWER ? client_succeed(c) : client_abandon(c, b, UNKNOWN_COMMAND);
        case 2:
            return client_acknowledge(c, b, bytes);
        }
    }
    return client_abandon(c, b, UNKNOWN_COMMAND);
}

/* Whether the tick ended the transfer. */
static int client_tick(struct client *c, struct bench *b)
{
    if (c->phase != OPEN) {
        if (c->rest && --c->rest == 0)
            quiet(b);
        return 0;
    }
    if (c->ticks < CLIENT_PATIENCE - 1) {
        c->ticks++;
        return 0;
    }
    client_abandon(c, b, TIMED_OUT);
    return 1;
}

static u8 client_free(const struct client *c)
{
    if (c->phase != CLEARED)
        return NOT_CLEARED;
    if (c->rest)
        return RESTING;
    return c->begun == 65535 ? ALL_BEGUN : 0;
}

static void client_open(struct client *c, struct bench *b, u8 direction, struct multiplexor m, u8 awaiting,
                        struct frame start)
{
    c->begun++;
    c->phase = OPEN;
    c->direction = direction;
    c->at = m;
    c->awaiting = awaiting;
    c->highest = 0;
    c->ticks = 0;
    quiet(b);
    to_node(b, start);
}

/* The bench. */

struct bench {
    struct line line;
    struct table dictionary;
    struct client client;
    struct server server;
};

static void to_master(struct bench *b, struct frame frame) { ring_add(&b->line, &b->line.to_master, frame); }
static void to_node(struct bench *b, struct frame frame) { ring_add(&b->line, &b->line.to_node, frame); }
static struct table *dictionary(struct bench *b) { return &b->dictionary; }
static void quiet(struct bench *b) { line_quiet(&b->line); }

static void bench_start(struct bench *b, u8 node, u8 block_size)
{
    b->line.to_node.first = 0;
    b->line.to_master.first = 0;
    line_quiet(&b->line);
    table_sample(&b->dictionary);
    b->client.node = node;
    b->client.phase = CLEARED;
    b->client.begun = 0;
    b->client.rest = 0;
    b->client.length = 0;
    b->server.number = node;
    b->server.block_size = block_size;
    b->server.doing = IDLE;
    b->server.ticks = 0;
    b->server.commits = 0;
    b->server.length = 0;
}

/* Begins a write; 0, or why not. */
static u8 begin_write(struct bench *b, u8 method, struct multiplexor m, const u8 *value, usize length)
{
    struct client *c = &b->client;
    u8 refusal = client_free(c);
    if (refusal)
        return refusal;
    if (length < 1 || length > LONGEST)
        return VALUE_LENGTH;
    if (method == EXPEDITED && length > 4)
        return NOT_EXPEDITED;
    memcpy(c->value, value, length);
    c->length = length;
    if (method == EXPEDITED) {
        u32 data = 0;
        for (usize i = 0; i < length; i++)
            data |= (u32)value[i] << 8 * i;
        struct frame start = message(requests(c), (u8)(0x23 | (4 - length) << 2), m, data);
        client_open(c, b, WRITING, m, EXPEDITED_DOWNLOAD_ANSWER, start);
    } else if (method == SEGMENTED) {
        client_open(c, b, WRITING, m, DOWNLOAD_ANSWER, message(requests(c), 0x21, m, (u32)length));
    } else {
        client_open(c, b, WRITING, m, BLOCK_ANSWER, message(requests(c), 0xc6, m, (u32)length));
    }
    return 0;
}

/* Begins a read; 0, or why not. */
static u8 begin_read(struct bench *b, struct multiplexor m)
{
    struct client *c = &b->client;
    u8 refusal = client_free(c);
    if (refusal)
        return refusal;
    c->length = 0;
    client_open(c, b, READING, m, UPLOAD_ANSWER, message(requests(c), 0x40, m, 0));
    return 0;
}

static enum served serve(struct bench *b)
{
    struct frame frame;
    return ring_take(&b->line.to_node, &frame) ? server_take(&b->server, b, &frame) : NO_REQUEST;
}

static enum heard hear(struct bench *b)
{
    struct frame frame;
    return ring_take(&b->line.to_master, &frame) ? client_take(&b->client, b, &frame) : NO_ANSWER;
}

static int tick(struct bench *b)
{
    int ended = client_tick(&b->client, b);
    server_tick(&b->server, b);
    return ended;
}

enum outcome { WRITTEN = 1, READ, UNWRITTEN, UNDECIDED, UNREAD };

enum layer { NO_LAYER, MASTER_LAYER, PROTOCOL_LAYER, DICTIONARY_LAYER };

struct report {
    u8 outcome;
    u8 layer;
    u16 segment;
    struct multiplexor at;
    u32 code;
    usize length;
};

static u8 layer_of(u32 code)
{
    switch (code) {
    case WRITE_ONLY:
    case READ_ONLY:
    case NO_OBJECT:
    case LENGTH_TOO_HIGH:
    case LENGTH_TOO_LOW:
    case NO_SUBINDEX:
    case INVALID_VALUE:
        return DICTIONARY_LAYER;
    default:
        return PROTOCOL_LAYER;
    }
}

/* Settles the transfer of a number; 0, or why not. */
static u8 settle(struct bench *b, u16 number, u8 *buffer, usize room, struct report *report)
{
    struct client *c = &b->client;
    if (c->phase == CLEARED || c->begun != number)
        return NOT_OUT;
    if (room < LONGEST)
        return SHORT_BUFFER;
    if (c->phase == OPEN)
        client_abandon(c, b, GENERAL_ERROR);
    c->phase = CLEARED;
    *report = (struct report){0};
    if (c->failed) {
        report->outcome = c->direction == READING ? UNREAD : c->may_be_set ? UNDECIDED : UNWRITTEN;
        report->layer = c->by_node ? layer_of(c->code) : MASTER_LAYER;
        report->segment = c->highest;
        report->at = c->at;
        report->code = c->code;
    } else if (c->direction == READING) {
        report->outcome = READ;
        report->length = c->length;
        memcpy(buffer, c->value, c->length);
    } else {
        report->outcome = WRITTEN;
    }
    return 0;
}

/* Lets both ends take all that waits and a tick pass, and tells whether the transfer ended. */
static int pass_round(struct bench *b)
{
    int over = 0;
    for (int i = 0; i < MOST_FRAMES && serve(b) != NO_REQUEST; i++)
        ;
    for (int i = 0; i < MOST_FRAMES; i++) {
        enum heard heard = hear(b);
        if (heard == NO_ANSWER)
            break;
        if (heard == ENDED)
            over = 1;
    }
    return tick(b) || over;
}

/* Carries out the transfer that was begun. */
static struct report carry_out(struct bench *b, u8 *buffer)
{
    struct report report = {0};
    for (int i = 0; i < MOST_ROUNDS && !pass_round(b); i++)
        ;
    if (settle(b, b->client.begun, buffer, LONGEST, &report))
        return report;
    if (report.outcome != WRITTEN && report.outcome != READ)
        for (int i = 0; i < REST; i++)
            tick(b);
    return report;
}

#ifdef TRACED

static u8 *put(u8 *end, u32 number, int bytes)
{
    for (int i = 0; i < bytes; i++)
        *end++ = (u8)(number >> 8 * i);
    return end;
}

static u8 *put_report(u8 *end, u8 refusal, const struct report *report)
{
    end = put(end, refusal, 1);
    end = put(end, report->outcome, 1);
    end = put(end, report->layer, 1);
    end = put(end, report->at.index, 2);
    end = put(end, report->at.subindex, 1);
    end = put(end, report->code, 4);
    end = put(end, report->segment, 2);
    end = put(end, (u32)report->length, 4);
    return put(end, 0, 4);
}

usize plain_trace(u16 index, u8 subindex, const u8 *value, usize length, u8 *trace, usize room)
{
    struct bench bench;
    u8 buffer[LONGEST] = {0};
    struct multiplexor m = {index, subindex};
    u8 told[6 * 20], *end = told;
    (void)room;
    bench.line.trace = trace;
    bench.line.traced = 0;
    bench_start(&bench, 5, 127);
    for (u8 method = EXPEDITED; method <= BLOCK; method++) {
        struct report report = {0};
        u8 refusal = begin_write(&bench, method, m, value, length);
        if (!refusal)
            report = carry_out(&bench, buffer);
        end = put_report(end, refusal, &report);
        report = (struct report){0};
        refusal = begin_read(&bench, m);
        if (!refusal)
            report = carry_out(&bench, buffer);
        end = put_report(end, refusal, &report);
    }
    usize size = (usize)(end - told);
    end = trace + bench.line.traced;
    memcpy(end, told, size);
    end = put(end + size, bench.server.commits, 2);
    memcpy(end, buffer, LONGEST);
    return (usize)(end - trace) + LONGEST;
}

#else

u16 plain_writes(u8 method, u16 index, u8 subindex, const u8 *value, usize length, u16 count)
{
    struct bench bench;
    u8 buffer[LONGEST] = {0};
    struct multiplexor m = {index, subindex};
    u16 good = 0;
    bench_start(&bench, 5, 127);
    for (u16 i = 0; i < count; i++)
        if (!begin_write(&bench, method, m, value, length) && carry_out(&bench, buffer).outcome == WRITTEN)
            good++;
    return good;
}

u16 plain_reads(u16 index, u8 subindex, const u8 *value, usize length, u16 count)
{
    struct bench bench;
    u8 buffer[LONGEST] = {0};
    struct multiplexor m = {index, subindex};
    u16 good = 0;
    bench_start(&bench, 5, 127);
    if (!begin_write(&bench, BLOCK, m, value, length))
        carry_out(&bench, buffer);
    for (u16 i = 0; i < count; i++)
        if (!begin_read(&bench, m) && carry_out(&bench, buffer).outcome == READ)
            good++;
    return good;
}

#endif
