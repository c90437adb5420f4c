/* Runs both sides of each measured function on the same inputs, and tells where they differ. The instructions are counted
 * from outside, function by function. */
#include "plain.h"

int printf(const char *format, ...);
int strcmp(const char *a, const char *b);
int atoi(const char *text);

static u64 seed = 0x9e3779b97f4a7c15ull;

static u64 next(void)
{
    seed ^= seed << 13;
    seed ^= seed >> 7;
    seed ^= seed << 17;
    return seed;
}

/* Fills a frame with random bytes, but for its first. */
static void fill(u8 *frame, u64 b0)
{
    u64 bytes = next();
    frame[0] = (u8)b0;
    for (int k = 1; k < 8; k++)
        frame[k] = (u8)(bytes >> 8 * k);
}

static int differ(void (*plain)(struct frames *), void (*proved)(struct frames *), struct frames frames)
{
    struct frames other = frames;
    plain(&frames);
    proved(&other);
    for (usize k = 0; k < sizeof frames; k++)
        if (((u8 *)&frames)[k] != ((u8 *)&other)[k])
            return 1;
    return 0;
}

/* Whether writes of some bytes, and reads after them, send other frames or tell another thing. */
static int traces_differ(u16 index, u8 subindex, const u8 *value, usize length)
{
    static u8 plain[20000], proved[20000];
    usize size = plain_trace(index, subindex, value, length, plain, sizeof plain);
    if (wontazhil_trace(index, subindex, value, length, proved, sizeof proved) != size)
        return 1;
    for (usize k = 0; k < size; k++)
        if (plain[k] != proved[k])
            return 1;
    return 0;
}

/* Values of every length that matters, to entries that take them or do not, and to none. */
static unsigned long differing_transfers(const u8 *value)
{
    static const struct {
        u16 index;
        u8 subindex;
    } entries[] = {{0x2001, 0}, {0x2000, 1}, {0x2000, 0}, {0x1000, 0}, {0x1008, 0}, {0x1001, 0}};
    static const usize lengths[] = {0, 1, 2, 3, 4, 5, 6, 7, 8, 14, 15, 100, 888, 889, 890, 1017, 1018, 1022, 1023, 1024, 1025};
    unsigned long differences = 0;
    for (usize e = 0; e < sizeof entries / sizeof *entries; e++)
        for (usize l = 0; l < sizeof lengths / sizeof *lengths; l++)
            differences += traces_differ(entries[e].index, entries[e].subindex, value, lengths[l]);
    return differences;
}

/* So many transfers on both sides; whether one of them failed. */
static int run(const char *name, const u8 *value, u16 count)
{
    if (!strcmp(name, "block"))
        return plain_writes(2, 0x2001, 0, value, 1024, count) != count ||
               wontazhil_writes(2, 0x2001, 0, value, 1024, count) != count;
    if (!strcmp(name, "segmented"))
        return plain_writes(1, 0x2001, 0, value, 1024, count) != count ||
               wontazhil_writes(1, 0x2001, 0, value, 1024, count) != count;
    if (!strcmp(name, "expedited"))
        return plain_writes(0, 0x2000, 1, value, 2, count) != count ||
               wontazhil_writes(0, 0x2000, 1, value, 2, count) != count;
    return plain_reads(0x2001, 0, value, 1024, count) != count || wontazhil_reads(0x2001, 0, value, 1024, count) != count;
}

/* On how many values, and on how many frames, both sides differ. */
static unsigned long differing_messages(const u8 *value)
{
    unsigned long differences = 0;
    for (usize length = 0; length <= 1024; length++)
        if (plain_crc(value, length) != wontazhil_crc(value, length))
            differences++;
    for (int round = 0; round < 64; round++)
        for (u64 b0 = 0; b0 < 256; b0++) {
            struct frames frames;
            fill(frames.first, b0);
            fill(frames.second, next());
            fill(frames.third, next());
            fill(frames.fourth, next());
            differences += differ(plain_requests, wontazhil_requests, frames);
            differences += differ(plain_answers, wontazhil_answers, frames);
        }
    return differences;
}

/* With the name of a transfer and a number: so many of them. With one word: what crc, requests and answers cost. Without:
 * the comparison of all. */
int main(int arguments, char **argument)
{
    static u8 value[1025];
    plain_prepare();
    for (int i = 0; i < 1025; i++)
        value[i] = (u8)next();
    if (arguments == 3)
        return run(argument[1], value, (u16)atoi(argument[2]));
    unsigned long differences = differing_messages(value);
    if (arguments == 2)
        return differences != 0;
    differences += differing_transfers(value);
    printf("%lu differences\n", differences);
    return differences != 0;
}
