/* The measured functions: `plain_` in C, `wontazhil_` from the proved library. A slice of the library's is a place and a
 * length. */
typedef unsigned char u8;
typedef unsigned short u16;
typedef unsigned int u32;
typedef unsigned long long u64;
typedef unsigned long usize;

void plain_prepare(void);

/* The check value of some bytes. */
u16 plain_crc(const u8 *bytes, usize length);
u16 wontazhil_crc(const u8 *bytes, usize length);

/* The bytes of four frames. */
struct frames {
    u8 first[8], second[8], third[8], fourth[8];
};

/* Four frames are read as requests (as answers), and then each is made again from what was read; one that is none has all
 * bits set. */
void plain_requests(struct frames *frames);
void wontazhil_requests(struct frames *frames);
void plain_answers(struct frames *frames);
void wontazhil_answers(struct frames *frames);

/* A value is written to an entry (or written once and read) as often as is said, over a memory line and a new sample
 * dictionary; the number of times that it was. The method is 0 expedited, 1 segmented, 2 block. */
u16 plain_writes(u8 method, u16 index, u8 subindex, const u8 *value, usize length, u16 count);
u16 wontazhil_writes(u8 method, u16 index, u8 subindex, const u8 *value, usize length, u16 count);
u16 plain_reads(u16 index, u8 subindex, const u8 *value, usize length, u16 count);
u16 wontazhil_reads(u16 index, u8 subindex, const u8 *value, usize length, u16 count);

/* Writes of a value to an entry by each method, with a read after each: every frame that was sent, what was told, how many
 * values the node has set and the bytes that were read last. The number of bytes that they take. */
usize plain_trace(u16 index, u8 subindex, const u8 *value, usize length, u8 *trace, usize room);
usize wontazhil_trace(u16 index, u8 subindex, const u8 *value, usize length, u8 *trace, usize room);
