/* What the measured functions do, written in plain C: the check value of block transfers by a table of 256 entries,
 * and SDO frames taken apart into a struct and put together again from it. Nothing here is taken from the proved code. */
#include "plain.h"

static u16 table[256];

void plain_prepare(void)
{
    for (int i = 0; i < 256; i++) {
        u16 r = (u16)(i << 8);
        for (int bit = 0; bit < 8; bit++)
            r = (u16)((r & 0x8000) ? (r << 1) ^ 0x1021 : r << 1);
        table[i] = r;
    }
}

u16 plain_crc(const u8 *bytes, usize length)
{
    u16 r = 0;
    for (usize i = 0; i < length; i++)
        r = (u16)(r << 8) ^ table[(u8)(r >> 8) ^ bytes[i]];
    return r;
}

enum kind {
    NONE,
    INITIATE_DOWNLOAD,
    DOWNLOAD_SEGMENT,
    INITIATE_UPLOAD,
    UPLOAD_SEGMENT,
    INITIATE_BLOCK_DOWNLOAD,
    END_BLOCK_DOWNLOAD,
    ACKNOWLEDGE_BLOCK,
    ABORT,
};

struct message {
    enum kind kind;
    u16 index;
    u8 subindex;
    u8 expedited;  /* the value comes at once */
    u8 has_size;   /* a size stands */
    u8 crc_offer;
    u8 toggle;
    u8 last;
    u8 length;     /* bytes of a value */
    u8 unused;
    u8 number;     /* the last segment kept */
    u8 block_size;
    u16 crc;
    u32 word;      /* size or abort code */
    u8 data[7];
};

static u32 word(const u8 *b) { return (u32)b[4] | (u32)b[5] << 8 | (u32)b[6] << 16 | (u32)b[7] << 24; }

static void put_word(u8 *b, u32 n)
{
    b[4] = (u8)n;
    b[5] = (u8)(n >> 8);
    b[6] = (u8)(n >> 16);
    b[7] = (u8)(n >> 24);
}

static void put_zeros(u8 *b, int from)
{
    for (int k = from; k < 8; k++)
        b[k] = 0;
}

static void read_multiplexor(const u8 *b, struct message *m)
{
    m->index = (u16)(b[1] | b[2] << 8);
    m->subindex = b[3];
}

static void put_multiplexor(u8 *b, const struct message *m)
{
    b[1] = (u8)m->index;
    b[2] = (u8)(m->index >> 8);
    b[3] = m->subindex;
}

static void read_start(const u8 *b, struct message *m)
{
    read_multiplexor(b, m);
    m->expedited = b[0] >> 1 & 1;
    m->has_size = b[0] & 1;
    if (m->expedited) {
        m->length = m->has_size ? 4 - (b[0] >> 2 & 3) : 4;
        for (int k = 0; k < 4; k++)
            m->data[k] = k < m->length ? b[4 + k] : 0;
    } else {
        m->word = m->has_size ? word(b) : 0;
    }
}

static void make_start(u8 *b, u8 command, const struct message *m)
{
    put_multiplexor(b, m);
    if (m->expedited) {
        b[0] = (u8)(command | 3 | (4 - m->length) << 2);
        for (int k = 0; k < 4; k++)
            b[4 + k] = m->data[k];
    } else {
        b[0] = command | m->has_size;
        put_word(b, m->word);
    }
}

static void read_segment(const u8 *b, struct message *m)
{
    m->toggle = b[0] >> 4 & 1;
    m->last = b[0] & 1;
    m->length = 7 - (b[0] >> 1 & 7);
    for (int k = 0; k < 7; k++)
        m->data[k] = k < m->length ? b[1 + k] : 0;
}

static void make_segment(u8 *b, const struct message *m)
{
    b[0] = (u8)(m->toggle << 4 | (7 - m->length) << 1 | m->last);
    for (int k = 0; k < 7; k++)
        b[1 + k] = m->data[k];
}

static void make_abort(u8 *b, const struct message *m)
{
    b[0] = 0x80;
    put_multiplexor(b, m);
    put_word(b, m->word);
}

static void make_none(u8 *b)
{
    for (int k = 0; k < 8; k++)
        b[k] = 0xff;
}

static void read_request(const u8 *b, struct message *m)
{
    switch (b[0] >> 5) {
    case 0:
        m->kind = DOWNLOAD_SEGMENT;
        read_segment(b, m);
        break;
    case 1:
        m->kind = INITIATE_DOWNLOAD;
        read_start(b, m);
        break;
    case 2:
        m->kind = INITIATE_UPLOAD;
        read_multiplexor(b, m);
        break;
    case 3:
        m->kind = UPLOAD_SEGMENT;
        m->toggle = b[0] >> 4 & 1;
        break;
    case 4:
        m->kind = ABORT;
        read_multiplexor(b, m);
        m->word = word(b);
        break;
    case 6:
        if (b[0] & 1) {
            m->kind = END_BLOCK_DOWNLOAD;
            m->unused = b[0] >> 2 & 7;
            m->crc = (u16)(b[1] | b[2] << 8);
        } else {
            m->kind = INITIATE_BLOCK_DOWNLOAD;
            read_multiplexor(b, m);
            m->crc_offer = b[0] >> 2 & 1;
            m->has_size = b[0] >> 1 & 1;
            m->word = m->has_size ? word(b) : 0;
        }
        break;
    default:
        m->kind = NONE;
    }
}

static void make_request(u8 *b, const struct message *m)
{
    switch (m->kind) {
    case DOWNLOAD_SEGMENT:
        make_segment(b, m);
        break;
    case INITIATE_DOWNLOAD:
        make_start(b, 0x20, m);
        break;
    case INITIATE_UPLOAD:
        b[0] = 0x40;
        put_multiplexor(b, m);
        put_zeros(b, 4);
        break;
    case UPLOAD_SEGMENT:
        b[0] = (u8)(0x60 | m->toggle << 4);
        put_zeros(b, 1);
        break;
    case ABORT:
        make_abort(b, m);
        break;
    case END_BLOCK_DOWNLOAD:
        b[0] = (u8)(0xc1 | m->unused << 2);
        b[1] = (u8)m->crc;
        b[2] = (u8)(m->crc >> 8);
        put_zeros(b, 3);
        break;
    case INITIATE_BLOCK_DOWNLOAD:
        b[0] = (u8)(0xc0 | m->crc_offer << 2 | m->has_size << 1);
        put_multiplexor(b, m);
        put_word(b, m->word);
        break;
    default:
        make_none(b);
    }
}

static void read_answer(const u8 *b, struct message *m)
{
    m->kind = NONE;
    switch (b[0] >> 5) {
    case 0:
        m->kind = UPLOAD_SEGMENT;
        read_segment(b, m);
        break;
    case 1:
        m->kind = DOWNLOAD_SEGMENT;
        m->toggle = b[0] >> 4 & 1;
        break;
    case 2:
        m->kind = INITIATE_UPLOAD;
        read_start(b, m);
        break;
    case 3:
        m->kind = INITIATE_DOWNLOAD;
        read_multiplexor(b, m);
        break;
    case 4:
        m->kind = ABORT;
        read_multiplexor(b, m);
        m->word = word(b);
        break;
    case 5:
        switch (b[0] & 3) {
        case 0:
            m->kind = INITIATE_BLOCK_DOWNLOAD;
            read_multiplexor(b, m);
            m->crc_offer = b[0] >> 2 & 1;
            m->block_size = b[4];
            break;
        case 1:
            m->kind = END_BLOCK_DOWNLOAD;
            break;
        case 2:
            m->kind = ACKNOWLEDGE_BLOCK;
            m->number = b[1];
            m->block_size = b[2];
            break;
        }
        break;
    }
}

static void make_answer(u8 *b, const struct message *m)
{
    switch (m->kind) {
    case UPLOAD_SEGMENT:
        make_segment(b, m);
        break;
    case DOWNLOAD_SEGMENT:
        b[0] = (u8)(0x20 | m->toggle << 4);
        put_zeros(b, 1);
        break;
    case INITIATE_UPLOAD:
        make_start(b, 0x40, m);
        break;
    case INITIATE_DOWNLOAD:
        b[0] = 0x60;
        put_multiplexor(b, m);
        put_zeros(b, 4);
        break;
    case ABORT:
        make_abort(b, m);
        break;
    case INITIATE_BLOCK_DOWNLOAD:
        b[0] = (u8)(0xa0 | m->crc_offer << 2);
        put_multiplexor(b, m);
        b[4] = m->block_size;
        put_zeros(b, 5);
        break;
    case END_BLOCK_DOWNLOAD:
        b[0] = 0xa1;
        put_zeros(b, 1);
        break;
    case ACKNOWLEDGE_BLOCK:
        b[0] = 0xa2;
        b[1] = m->number;
        b[2] = m->block_size;
        put_zeros(b, 3);
        break;
    default:
        make_none(b);
    }
}

void plain_requests(struct frames *frames)
{
    struct message message;
    read_request(frames->first, &message);
    make_request(frames->first, &message);
    read_request(frames->second, &message);
    make_request(frames->second, &message);
    read_request(frames->third, &message);
    make_request(frames->third, &message);
    read_request(frames->fourth, &message);
    make_request(frames->fourth, &message);
}

void plain_answers(struct frames *frames)
{
    struct message message;
    read_answer(frames->first, &message);
    make_answer(frames->first, &message);
    read_answer(frames->second, &message);
    make_answer(frames->second, &message);
    read_answer(frames->third, &message);
    make_answer(frames->third, &message);
    read_answer(frames->fourth, &message);
    make_answer(frames->fourth, &message);
}
