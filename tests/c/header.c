/* The header as a C11 host uses it: bench packets (docs/RULES.md, rule 8.1) through the entries and macros. */
#include "check.h"
#include "vermolgas.h"

#include <stdbool.h>
#include <string.h>

/* A packet or reply with its length, from a list of bytes. */
#define BYTES(...) (const uint8_t[]){__VA_ARGS__}, sizeof((const uint8_t[]){__VA_ARGS__})

static struct {
    uint8_t block[VERMOLGAS_BLOCK_BYTES], staged[VERMOLGAS_MAP_BYTES], live[VERMOLGAS_MAP_BYTES];
    uint8_t gains[VERMOLGAS_GAINS_BYTES], reply[VERMOLGAS_REPLY_BYTES];
} lent;

/* What is lent, as arguments of a call. */
#define LENT                                                                                                          \
    lent.block, sizeof lent.block, lent.staged, sizeof lent.staged, lent.live, sizeof lent.live, lent.gains,          \
        sizeof lent.gains

static uint64_t send(const uint8_t *packet, size_t length)
{
    return vermolgas_packet(packet, length, LENT, lent.reply, sizeof lent.reply);
}

/* The answer of an accepted packet with a reply of this length. */
static uint64_t replied(size_t length)
{
    return (uint64_t)length << 8;
}

/* The refusal of a packet whose data has its first fault here, without the length of a reply. */
static uint64_t fault_at(size_t place)
{
    return VERMOLGAS_REFUSED_RANGE | (uint64_t)place << 32;
}

static void reset_controllers(void)
{
    memset(&lent, 0xAA, sizeof lent);
    CHECK(vermolgas_reset(LENT) == VERMOLGAS_ACCEPTED);
    CHECK(lent.block[0] == 0 && lent.block[9] == 62 && lent.block[VERMOLGAS_BLOCK_BYTES - 1] == 0);
    CHECK(lent.staged[0] == 0 && lent.live[VERMOLGAS_MAP_BYTES - 1] == 0);
    CHECK(lent.gains[0] == 0x00 && lent.gains[VERMOLGAS_GAINS_BYTES - 1] == 0x10);
    CHECK(lent.reply[0] == 0xAA);

    lent.block[0] = 4;
    CHECK(vermolgas_reset(lent.block, sizeof lent.block - 1, lent.staged, sizeof lent.staged, lent.live,
                          sizeof lent.live, lent.gains, sizeof lent.gains) == VERMOLGAS_REFUSED_LENT);
    CHECK(vermolgas_reset(NULL, 0, NULL, 0, NULL, 0, NULL, 0) == VERMOLGAS_REFUSED_LENT);
    CHECK(lent.block[0] == 4);
}

static void send_packets(void)
{
    CHECK(vermolgas_reset(LENT) == VERMOLGAS_ACCEPTED);
    memset(lent.reply, 0xAA, sizeof lent.reply);
    CHECK(send(BYTES(0x04, 0x11, 0x01)) == replied(0));
    CHECK(lent.block[0] == 1 && lent.reply[0] == 0xAA);

    uint64_t display = send(BYTES(0x84, 0x11));
    CHECK(VERMOLGAS_STATUS(display) == VERMOLGAS_ACCEPTED);
    CHECK(VERMOLGAS_PACKET_REPLY_LENGTH(display) == 4);
    CHECK(memcmp(lent.reply, (const uint8_t[]){0x00, 0x01, 0x00, 0x01, 0xAA}, 5) == 0);

    CHECK(send(BYTES(0x44, 0x11, 0x01)) == replied(3));
    CHECK(memcmp(lent.reply, (const uint8_t[]){0x00, 0x00, 0x00}, 3) == 0);
    CHECK(send(BYTES(0x14, 0x34, 0x06, 0x00, 0xBF, 0x07, 0x01, 0x00, 0x02, 0x00)) == replied(0));
    CHECK(memcmp(lent.staged + 4 * 1983, (const uint8_t[]){0x01, 0x00, 0x02, 0x00}, 4) == 0);
    CHECK(send(BYTES(0x14, 0x2B, 0x08, 0x00, 0x00, 0x01, 0x01, 0x00, 0xDF, 0x07, 0x00, 0x14)) == replied(0));
    CHECK(lent.gains[2 * 2015] == 0x00 && lent.gains[2 * 2015 + 1] == 0x14);
    CHECK(send(BYTES(0xA4, 0x34, 0x00, 0x00, 0x7F, 0x00, 0xDA)) == replied(VERMOLGAS_LONGEST));
}

static void refuse_sent_packets(void)
{
    CHECK(vermolgas_reset(LENT) == VERMOLGAS_ACCEPTED);
    CHECK(send(NULL, 0) == VERMOLGAS_REFUSED_TOO_SHORT);
    CHECK(send(BYTES(0x60)) == (VERMOLGAS_REFUSED_TOO_SHORT | replied(4)));
    CHECK(memcmp(lent.reply, (const uint8_t[]){0x02, 0x00, 0x00, 0x06}, 4) == 0);
    CHECK(send(BYTES(0x04, 0x11, 0x05)) == VERMOLGAS_REFUSED_RANGE);
    CHECK(send(BYTES(0x14, 0x34, 0x06, 0x00, 0xC0, 0x07, 0x01, 0x00, 0x02, 0x00)) == VERMOLGAS_REFUSED_PAST_TABLE);

    uint64_t past = send(BYTES(0x84, 0x34, 0xFF, 0xFF, 0x02, 0x00));
    CHECK(VERMOLGAS_STATUS(past) == VERMOLGAS_REFUSED_PAST_TABLE);
    CHECK(VERMOLGAS_PACKET_REPLY_LENGTH(past) == 3);
    CHECK(VERMOLGAS_REPLY_STATUS(vermolgas_read_reply(lent.reply, 3, 0)) == VERMOLGAS_REFUSED_PAST_TABLE);

    CHECK(vermolgas_packet(BYTES(0x84, 0x11), LENT, lent.reply, sizeof lent.reply - 1) == VERMOLGAS_REFUSED_LENT);
    CHECK(vermolgas_packet(BYTES(0x84, 0x11), LENT, NULL, 0) == VERMOLGAS_REFUSED_LENT);
    lent.block[0] = 5;
    CHECK(send(BYTES(0x84, 0x11)) == VERMOLGAS_REFUSED_LENT);
}

static void read_packets(void)
{
    uint64_t display = vermolgas_read(BYTES(0x04, 0x11, 0x01));
    CHECK(VERMOLGAS_STATUS(display) == VERMOLGAS_ACCEPTED);
    CHECK(VERMOLGAS_READ_OPCODE(display) == 0x11);
    CHECK(VERMOLGAS_READ_OPTIONS(display) == 0);
    CHECK(VERMOLGAS_READ_OFFSET(display) == 2);
    CHECK(VERMOLGAS_READ_LENGTH(display) == 1);

    uint64_t two_bytes = vermolgas_read(BYTES(0x0C, 0x11, 0x00, 0x01));
    CHECK(VERMOLGAS_STATUS(two_bytes) == VERMOLGAS_ACCEPTED);
    CHECK(VERMOLGAS_READ_OPCODE(two_bytes) == 0x11);
    CHECK(VERMOLGAS_READ_OPTIONS(two_bytes) == VERMOLGAS_OPTION_TWO_BYTE_OPCODE);
    CHECK(VERMOLGAS_READ_OFFSET(two_bytes) == 3);

    uint64_t point = vermolgas_read(BYTES(0x14, 0x34, 0x06, 0x00, 0xBF, 0x07, 0x01, 0x00, 0x02, 0x00));
    CHECK(VERMOLGAS_STATUS(point) == VERMOLGAS_ACCEPTED);
    CHECK(VERMOLGAS_READ_OPTIONS(point) == VERMOLGAS_OPTION_LENGTH);
    CHECK(VERMOLGAS_READ_OFFSET(point) == 4);
    CHECK(VERMOLGAS_READ_LENGTH(point) == 6);

    uint64_t read = vermolgas_read(BYTES(0x84, 0x11));
    CHECK(VERMOLGAS_READ_OPTIONS(read) == VERMOLGAS_OPTION_READ);
    CHECK(VERMOLGAS_READ_LENGTH(read) == 0);

    uint64_t asking = vermolgas_read(BYTES(0x64, 0x11, 0x01, 0x4F));
    CHECK(VERMOLGAS_READ_OPTIONS(asking) == (VERMOLGAS_OPTION_CHECKSUM | VERMOLGAS_OPTION_REPLY));
}

static void refuse_packets(void)
{
    CHECK(vermolgas_read(NULL, 0) == VERMOLGAS_REFUSED_TOO_SHORT);
    CHECK(vermolgas_read(BYTES(0x24, 0x11)) == VERMOLGAS_REFUSED_TOO_SHORT);
    CHECK(vermolgas_read(BYTES(0x14, 0x11, 0x02, 0x00, 0x01)) == VERMOLGAS_REFUSED_LENGTH);
    CHECK(vermolgas_read(BYTES(0x24, 0x11, 0x01, 0x36)) == VERMOLGAS_REFUSED_CHECKSUM);
    CHECK(vermolgas_read(BYTES(0x03, 0x11, 0x01)) == VERMOLGAS_REFUSED_DESTINATION);
    CHECK(vermolgas_read(BYTES(0x0C, 0x11, 0x01, 0x01)) == VERMOLGAS_REFUSED_OPCODE);
    CHECK(vermolgas_read(BYTES(0x04, 0x34, 0x00, 0x00, 0x08, 0x00, 0x10, 0x00)) == VERMOLGAS_REFUSED_LENGTH_MISSING);
    CHECK(vermolgas_read(BYTES(0x14, 0x34, 0x02, 0x00, 0x00, 0x00)) == VERMOLGAS_REFUSED_SIZE);
    CHECK(vermolgas_read(BYTES(0x04, 0x11, 0x05)) == VERMOLGAS_REFUSED_RANGE);
    CHECK(vermolgas_read(BYTES(0x04, 0x39, 0x01)) == VERMOLGAS_REFUSED_NOT_CARRIED);

    static const uint8_t long_packet[VERMOLGAS_LONGEST + 1] = {0x04, 0x11};
    CHECK(vermolgas_read(long_packet, sizeof long_packet) == VERMOLGAS_REFUSED_TOO_LONG);
}

static void make_packets(void)
{
    uint8_t buffer[VERMOLGAS_LONGEST], untouched[VERMOLGAS_LONGEST];
    memset(buffer, 0xAA, sizeof buffer);
    memset(untouched, 0xAA, sizeof untouched);

    CHECK(vermolgas_make(0x11, 0, BYTES(0x05), buffer, sizeof buffer) == VERMOLGAS_REFUSED_RANGE);
    CHECK(vermolgas_make(0x111, 0, BYTES(0x01), buffer, sizeof buffer) == VERMOLGAS_REFUSED_OPCODE);
    CHECK(vermolgas_make(0x11, 0, BYTES(0x01), buffer, sizeof buffer - 1) == VERMOLGAS_REFUSED_LENT);
    CHECK(vermolgas_make(0x11, 0, BYTES(0x01), NULL, 0) == VERMOLGAS_REFUSED_LENT);
    CHECK(memcmp(buffer, untouched, sizeof buffer) == 0);

    uint64_t made = vermolgas_make(0x11, VERMOLGAS_OPTION_CHECKSUM, BYTES(0x01), buffer, sizeof buffer);
    CHECK(VERMOLGAS_STATUS(made) == VERMOLGAS_ACCEPTED);
    CHECK(VERMOLGAS_MAKE_LENGTH(made) == 4);
    CHECK(memcmp(buffer, (const uint8_t[]){0x24, 0x11, 0x01, 0x8F}, 4) == 0);
    CHECK(memcmp(buffer + 4, untouched + 4, sizeof buffer - 4) == 0);

    made = vermolgas_make(0x11, VERMOLGAS_OPTION_READ, NULL, 0, buffer, sizeof buffer);
    CHECK(VERMOLGAS_MAKE_LENGTH(made) == 2);
    CHECK(memcmp(buffer, (const uint8_t[]){0x84, 0x11}, 2) == 0);
}

/* The checksum as docs/INTERFACE.md shows it. */
static uint8_t checksum_of(const uint8_t *bytes, size_t length)
{
    uint32_t first = 0, second = 0;
    for (size_t i = 0; i < length; i++) {
        first += bytes[i];
        second += first;
    }
    return second & 0xFF;
}

/* A write of red gains, made, sent, and sent again with another checksum. */
static void send_checked(uint8_t gains, uint8_t options)
{
    uint8_t data[6 + 2 * 250] = {0, VERMOLGAS_GAIN_RED, gains}, buffer[VERMOLGAS_LONGEST];
    for (size_t i = 6; i < sizeof data; i++)
        data[i] = i % 2 ? 0x1F : (uint8_t)(37 * i);

    uint64_t made = vermolgas_make(0x2B, options | VERMOLGAS_OPTION_LENGTH | VERMOLGAS_OPTION_CHECKSUM, data,
                                   6 + 2 * (size_t)gains, buffer, sizeof buffer);
    size_t length = VERMOLGAS_MAKE_LENGTH(made);
    CHECK(length == (options ? 12 : 11) + 2 * (size_t)gains);
    CHECK(buffer[length - 1] == checksum_of(buffer, length - 1));
    CHECK(send(buffer, length) == replied(0));
    buffer[length - 1] ^= 1;
    CHECK(send(buffer, length) == VERMOLGAS_REFUSED_CHECKSUM);
}

/* Packets of every length from 13 to 512, and a reply of 512 bytes. */
static void compare_checksums(void)
{
    CHECK(vermolgas_reset(LENT) == VERMOLGAS_ACCEPTED);
    for (uint8_t gains = 1; gains <= 250; gains++) {
        send_checked(gains, 0);
        send_checked(gains, VERMOLGAS_OPTION_TWO_BYTE_OPCODE);
    }

    uint8_t buffer[VERMOLGAS_LONGEST];
    uint64_t ask = vermolgas_make(0x34, VERMOLGAS_OPTION_READ | VERMOLGAS_OPTION_CHECKSUM,
                                  BYTES(0x00, 0x00, 0x7F, 0x00), buffer, sizeof buffer);
    CHECK(send(buffer, VERMOLGAS_MAKE_LENGTH(ask)) == replied(VERMOLGAS_LONGEST));
    CHECK(lent.reply[VERMOLGAS_LONGEST - 1] == checksum_of(lent.reply, VERMOLGAS_LONGEST - 1));
}

static void read_replies(void)
{
    uint64_t display = vermolgas_read_reply(BYTES(0x00, 0x01, 0x00, 0x01), 0);
    CHECK(VERMOLGAS_STATUS(display) == VERMOLGAS_ACCEPTED);
    CHECK(VERMOLGAS_REPLY_STATUS(display) == 0);
    CHECK(VERMOLGAS_REPLY_LENGTH(display) == 1);

    uint64_t refused = vermolgas_read_reply(BYTES(0x0C, 0x00, 0x00, 0x24), 1);
    CHECK(VERMOLGAS_STATUS(refused) == VERMOLGAS_ACCEPTED);
    CHECK(VERMOLGAS_REPLY_STATUS(refused) == VERMOLGAS_REFUSED_PAST_TABLE);
    CHECK(VERMOLGAS_REPLY_LENGTH(refused) == 0);

    CHECK(vermolgas_read_reply(NULL, 0, 0) == VERMOLGAS_REFUSED_TOO_SHORT);
    CHECK(vermolgas_read_reply(BYTES(0x00, 0x00, 0x00), 1) == VERMOLGAS_REFUSED_TOO_SHORT);
    CHECK(vermolgas_read_reply(BYTES(0x00, 0x02, 0x00, 0x01), 0) == VERMOLGAS_REFUSED_LENGTH);
    CHECK(vermolgas_read_reply(BYTES(0x00, 0x00, 0x00, 0x01), 1) == VERMOLGAS_REFUSED_CHECKSUM);
    CHECK(vermolgas_read_reply(BYTES(0x0D, 0x00, 0x00), 0) == VERMOLGAS_REFUSED_RANGE);
}

/* Maps of full size, and what planning writes. */
static struct {
    uint8_t held[VERMOLGAS_MAP_BYTES], wanted[VERMOLGAS_MAP_BYTES];
    uint8_t plan[VERMOLGAS_PLAN_LIST_BYTES], room[VERMOLGAS_ROOM_BYTES], choices[VERMOLGAS_CHOICES_BYTES];
    uint8_t batch[VERMOLGAS_BATCH_BYTES];
} upload;

static uint64_t plan(uint32_t points)
{
    size_t length = points <= VERMOLGAS_MOST_POINTS ? VERMOLGAS_POINT_BYTES * (size_t)points : 0;
    memset(upload.plan, 0xAA, sizeof upload.plan);
    memset(upload.room, 0xAA, sizeof upload.room);
    memset(upload.choices, 0xAA, sizeof upload.choices);
    memset(upload.batch, 0xAA, sizeof upload.batch);
    return vermolgas_plan(points, upload.held, length, upload.wanted, length, upload.plan, sizeof upload.plan,
                          upload.room, sizeof upload.room, upload.choices, sizeof upload.choices, upload.batch,
                          sizeof upload.batch);
}

/* The room's number at an index. */
static uint32_t room(size_t index)
{
    const uint8_t *bytes = upload.room + 4 * index;
    return bytes[0] | (uint32_t)bytes[1] << 8 | (uint32_t)bytes[2] << 16 | (uint32_t)bytes[3] << 24;
}

/* Whether all of these bytes are 0. */
static bool all_zero(const uint8_t *bytes, size_t length)
{
    size_t i = 0;
    while (i < length && bytes[i] == 0)
        i++;
    return i == length;
}

/* Whether the rooms begin with these numbers and choices, one for each point, and have 0 behind them. */
static bool rooms_are(const uint32_t *numbers, const uint8_t *choices, size_t points)
{
    size_t i = 0;
    while (i < points && room(i) == numbers[i] && upload.choices[i] == choices[i])
        i++;
    return i == points && all_zero(upload.room + 4 * points, sizeof upload.room - 4 * points) &&
           all_zero(upload.choices + points, sizeof upload.choices - points);
}

static void plan_uploads(void)
{
    CHECK(VERMOLGAS_MOST_POINTS * VERMOLGAS_POINT_BYTES == VERMOLGAS_MAP_BYTES);
    CHECK(plan(5) == VERMOLGAS_ACCEPTED);
    CHECK(upload.plan[0] == 0xAA && upload.batch[0] == 0xAA && rooms_are(NULL, NULL, 0));

    /* Points 0 and 2: one packet of 18 bytes. */
    upload.wanted[0] = 1;
    upload.wanted[4 * 2 + 3] = 2;
    uint64_t answer = plan(5);
    CHECK(VERMOLGAS_STATUS(answer) == VERMOLGAS_ACCEPTED);
    CHECK(VERMOLGAS_PLAN_PACKETS(answer) == 1);
    CHECK(VERMOLGAS_PLAN_BYTES(answer) == 18);
    CHECK(memcmp(upload.plan, (const uint8_t[]){0, 0, 3, 0, 0xAA}, 5) == 0);
    CHECK(memcmp(upload.batch, (const uint8_t[]){0x14, 0x34, 14, 0, 0, 0, 1, 0, 0, 0, 0, 0, 0, 0, 0, 0, 0, 2, 0xAA},
                 19) == 0);
    CHECK(rooms_are((const uint32_t[]){18, 10, 10}, (const uint8_t[]){3, 0, 1}, 3));

    /* Points 0 and 3 differ: two packets, 20 bytes. */
    upload.wanted[4 * 2 + 3] = 0;
    upload.wanted[4 * 3] = 7;
    answer = plan(4);
    CHECK(VERMOLGAS_PLAN_PACKETS(answer) == 2);
    CHECK(VERMOLGAS_PLAN_BYTES(answer) == 20);
    CHECK(memcmp(upload.plan, (const uint8_t[]){0, 0, 1, 0, 3, 0, 1, 0, 0xAA}, 9) == 0);
    CHECK(upload.batch[20] == 0xAA);
    CHECK(rooms_are((const uint32_t[]){20, 10, 10, 10}, (const uint8_t[]){1, 0, 0, 1}, 4));

    /* The staged map after reset is held; the front end takes the packets. */
    CHECK(vermolgas_reset(LENT) == VERMOLGAS_ACCEPTED);
    answer = plan(VERMOLGAS_MOST_POINTS);
    CHECK(VERMOLGAS_PLAN_PACKETS(answer) == 2);
    CHECK(rooms_are((const uint32_t[]){20, 10, 10, 10}, (const uint8_t[]){1, 0, 0, 1}, 4));
    CHECK(send(upload.batch, 10) == replied(0));
    CHECK(send(upload.batch + 10, 10) == replied(0));
    CHECK(memcmp(lent.staged, upload.wanted, sizeof upload.wanted) == 0);
}

/* All points from first on and before end differ, but for one; no other does. */
static void want(size_t first, size_t end, size_t except)
{
    memset(upload.held, 0, sizeof upload.held);
    memset(upload.wanted, 0, sizeof upload.wanted);
    for (size_t point = first; point < end; point++)
        upload.wanted[VERMOLGAS_POINT_BYTES * point + point % VERMOLGAS_POINT_BYTES] = point != except;
}

/* Room and choices where the points don't fit a packet, by hand. */
static void fill_rooms(void)
{
    /* 127 points, all different: one and 126, the smallest first count of many that cost the same. */
    want(0, 127, 127);
    CHECK(VERMOLGAS_PLAN_BYTES(plan(127)) == 520);
    CHECK(room(0) == 520 && upload.choices[0] == 1);
    for (size_t point = 1; point < 127; point++)
        CHECK(room(point) == 6 + 4 * (127 - point) && upload.choices[point] == 127 - point);
    CHECK(all_zero(upload.choices + 127, sizeof upload.choices - 127));

    /* 128 points, all different but 63. */
    want(0, 128, 63);
    CHECK(VERMOLGAS_PLAN_BYTES(plan(128)) == 520);
    CHECK(room(0) == 520 && room(1) == 516 && room(2) == 510 && room(62) == 270 && room(63) == 262);
    CHECK(room(64) == 262 && room(126) == 14);
    CHECK(memcmp(upload.choices, (const uint8_t[]){63, 62, 126, 125}, 4) == 0);
    CHECK(memcmp(upload.choices + 62, (const uint8_t[]){66, 0, 64, 63}, 4) == 0);
    CHECK(memcmp(upload.choices + 125, (const uint8_t[]){3, 2, 1, 0}, 4) == 0);

    /* The last point alone: the room does not reach it. */
    want(1983, 1984, 0);
    CHECK(VERMOLGAS_PLAN_BYTES(plan(VERMOLGAS_MOST_POINTS)) == 10);
    CHECK(room(0) == 10 && room(1) == 10 && room(125) == 10 && room(126) == 10);
    CHECK(all_zero(upload.choices, 1983) && upload.choices[1983] == 1);

    /* A full map: 94 points, then 15 times 126. */
    want(0, 1984, 1984);
    uint64_t answer = plan(VERMOLGAS_MOST_POINTS);
    CHECK(VERMOLGAS_PLAN_PACKETS(answer) == 16);
    CHECK(VERMOLGAS_PLAN_BYTES(answer) == VERMOLGAS_BATCH_BYTES);
    CHECK(memcmp(upload.plan, (const uint8_t[]){0, 0, 94, 0, 94, 0, 126, 0}, 8) == 0);
    CHECK(room(0) == 8032 && room(1) == 8028 && room(93) == 7660 && room(94) == 7650 && room(126) == 7522);
    CHECK(memcmp(upload.choices, (const uint8_t[]){94, 93, 92}, 3) == 0);
    CHECK(memcmp(upload.choices + 93, (const uint8_t[]){1, 126, 125}, 3) == 0);
    CHECK(memcmp(upload.choices + 1857, (const uint8_t[]){1, 126, 125}, 3) == 0);
    CHECK(upload.choices[1983] == 1);
}

/* A plan for one point, with these lengths. */
static uint64_t plan_in(size_t room_length, size_t choices_length, size_t batch_length)
{
    return vermolgas_plan(1, upload.held, 4, upload.wanted, 4, upload.plan, sizeof upload.plan, upload.room,
                          room_length, upload.choices, choices_length, upload.batch, batch_length);
}

static void refuse_plans(void)
{
    size_t least = VERMOLGAS_ROOM_BYTES, choices = VERMOLGAS_CHOICES_BYTES, batch = VERMOLGAS_BATCH_BYTES;

    CHECK(least == 508 && choices == 1984 && batch == 8032);
    CHECK(plan(0) == VERMOLGAS_REFUSED_RANGE);
    CHECK(plan(VERMOLGAS_MOST_POINTS + 1) == VERMOLGAS_REFUSED_RANGE);
    CHECK(plan(UINT32_MAX) == VERMOLGAS_REFUSED_RANGE);
    CHECK(plan_in(least - 1, choices, batch) == VERMOLGAS_REFUSED_LENT);
    CHECK(plan_in(least, choices - 1, batch) == VERMOLGAS_REFUSED_LENT);
    CHECK(plan_in(least, choices, batch - 1) == VERMOLGAS_REFUSED_LENT);
    CHECK(vermolgas_plan(1, NULL, 0, NULL, 0, NULL, 0, NULL, 0, NULL, 0, NULL, 0) == VERMOLGAS_REFUSED_LENT);
    CHECK(vermolgas_plan(0, NULL, 0, NULL, 0, NULL, 0, NULL, 0, NULL, 0, NULL, 0) == VERMOLGAS_REFUSED_RANGE);
    CHECK(upload.plan[0] == 0xAA && upload.room[0] == 0xAA && upload.choices[0] == 0xAA && upload.batch[0] == 0xAA);
}

/* 2Bh writes of pairs: red gains 2014 and 2015, then three gains of all colours. */
static void send_pairs(void)
{
    CHECK(vermolgas_reset(LENT) == VERMOLGAS_ACCEPTED);
    CHECK(send(BYTES(0x14, 0x2B, 0x0A, 0x00, VERMOLGAS_GAINS_COMPRESSED, VERMOLGAS_GAIN_RED, 0x02, 0x00, 0xDE, 0x07,
                     0x02, 0x00, 0x00, 0x14)) == replied(0));
    CHECK(memcmp(lent.gains + 2 * 2013, (const uint8_t[]){0x00, 0x10, 0x00, 0x14, 0x00, 0x14, 0x00, 0x10}, 8) == 0);
    CHECK(send(BYTES(0x14, 0x2B, 0x0E, 0x00, VERMOLGAS_GAINS_COMPRESSED, VERMOLGAS_GAIN_ALL, 0x04, 0x00, 0x01, 0x00,
                     0x02, 0x00, 0x05, 0x00, 0x01, 0x00, 0xFF, 0x1F)) == replied(0));
    for (size_t third = 0; third < 3; third++)
        CHECK(memcmp(lent.gains + third * VERMOLGAS_GAINS_BYTES / 3,
                     (const uint8_t[]){0x00, 0x10, 0x05, 0x00, 0x05, 0x00, 0xFF, 0x1F, 0x00, 0x10}, 10) == 0);
}

/* Half a pair, a run of 0, a run of 2,017, a gain of 8,192, one gain past the end; the guide's example, but for its
 * ramp. */
static void refuse_pairs(void)
{
    uint8_t example[4 + 6 + 4 * 32] = {0x54, 0x2B, 6 + 4 * 32, 0x00, 0x01, 0x00, 64, 0x00, 0x00, 0x00,
                                       0x3F, 0x00, 0x00,       0x10, 0x00, 0x00, 0x3F};
    for (size_t word = 4; word < 64; word++)
        example[10 + 2 * word] = word % 2 == 0 && word < 32 ? 0 : 63;

    CHECK(vermolgas_reset(LENT) == VERMOLGAS_ACCEPTED);
    CHECK(send(BYTES(0x14, 0x2B, 8, 0, 1, 4, 1, 0, 0, 0, 1, 0)) == VERMOLGAS_REFUSED_SIZE);
    CHECK(send(BYTES(0x14, 0x2B, 14, 0, 1, 1, 4, 0, 0, 0, 1, 0, 5, 0, 0, 0, 5, 0)) == fault_at(10));
    CHECK(send(BYTES(0x14, 0x2B, 14, 0, 1, 1, 4, 0, 0, 0, 1, 0, 5, 0, 0xE1, 7, 5, 0)) == fault_at(10));
    CHECK(send(BYTES(0x14, 0x2B, 14, 0, 1, 1, 4, 0, 0, 0, 1, 0, 5, 0, 1, 0, 0, 0x20)) == fault_at(12));
    CHECK(send(BYTES(0x14, 0x2B, 10, 0, 1, 1, 2, 0, 1, 0, 0xE0, 7, 5, 0)) == VERMOLGAS_REFUSED_PAST_TABLE);
    CHECK(send(BYTES(0x14, 0x2B, 10, 0, 1, 1, 2, 0, 0xFF, 0xFF, 1, 0, 5, 0)) == VERMOLGAS_REFUSED_PAST_TABLE);
    CHECK(send(example, sizeof example) == (fault_at(10) | replied(5)));
    CHECK(memcmp(lent.reply, (const uint8_t[]){0x0A, 0x02, 0x00, 10, 0}, 5) == 0);
    CHECK(lent.gains[0] == 0x00 && lent.gains[1] == 0x10);
}

/* Writes a packet with a length field, field by field, and gives its length. */
static size_t write_packet(uint8_t *packet, uint8_t options, uint8_t opcode, const uint8_t *data, size_t length)
{
    size_t at = 0;
    packet[at++] = 4 | VERMOLGAS_OPTION_LENGTH | options;
    packet[at++] = opcode;
    if (options & VERMOLGAS_OPTION_TWO_BYTE_OPCODE)
        packet[at++] = 0;
    packet[at++] = (uint8_t)length;
    packet[at++] = (uint8_t)(length >> 8);
    memcpy(packet + at, data, length);
    at += length;
    if (options & VERMOLGAS_OPTION_CHECKSUM) {
        packet[at] = checksum_of(packet, at);
        at++;
    }
    return at;
}

/* Whether the reply is one of status 10 with this place, as the options ask for it. */
static bool tells(size_t length, size_t place, uint8_t options)
{
    const uint8_t due[] = {0x0A, 0x02, 0x00, (uint8_t)place, (uint8_t)(place >> 8)};
    bool checksum = options & VERMOLGAS_OPTION_CHECKSUM;
    if (!(options & (VERMOLGAS_OPTION_REPLY | VERMOLGAS_OPTION_READ)))
        return length == 0;
    return length == sizeof due + checksum && memcmp(lent.reply, due, sizeof due) == 0 &&
           (!checksum || lent.reply[sizeof due] == checksum_of(due, sizeof due));
}

/* Data with its first fault at this place: made, read and sent in eight frames, by a write or a read. */
static void find_fault(size_t place, uint8_t opcode, uint8_t read, const uint8_t *data, size_t length)
{
    for (unsigned bits = 0; bits < 8; bits++) {
        uint8_t packet[VERMOLGAS_LONGEST], options = (uint8_t)((bits & 1) << 3 | (bits & 6) << 4 | read);
        size_t packet_length = write_packet(packet, options, opcode, data, length);
        uint64_t answer = send(packet, packet_length);
        size_t reply_length = VERMOLGAS_PACKET_REPLY_LENGTH(answer);
        CHECK(VERMOLGAS_STATUS(answer) == VERMOLGAS_REFUSED_RANGE && VERMOLGAS_FAULT_PLACE(answer) == place);
        CHECK(answer == (fault_at(place) | replied(reply_length)) && tells(reply_length, place, options));
        CHECK(vermolgas_read(packet, packet_length) == fault_at(place));
        answer = vermolgas_make(opcode, options | VERMOLGAS_OPTION_LENGTH, data, length, packet, sizeof packet);
        CHECK(answer == fault_at(place) && VERMOLGAS_FAULT_PLACE(answer) == place);
    }
}

/* Each field of each command, by hand. */
static void find_faults(void)
{
    uint8_t uart[11] = {2, 1, 11, 3, 1, 2, 1, 4, 4, 1, 1};

    CHECK(vermolgas_reset(LENT) == VERMOLGAS_ACCEPTED);
    find_fault(0, VERMOLGAS_OP_DISPLAY, 0, BYTES(5));
    find_fault(0, VERMOLGAS_OP_LOW_LATENCY, 0, BYTES(2));
    find_fault(0, VERMOLGAS_OP_CURTAIN, 0, BYTES(1));
    find_fault(0, VERMOLGAS_OP_FLIP, 0, BYTES(4));
    find_fault(0, VERMOLGAS_OP_FREEZE, 0, BYTES(2));
    find_fault(0, VERMOLGAS_OP_APPLY_WARPING, 0, BYTES(2));
    find_fault(0, VERMOLGAS_OP_UPDATE_MODE, 0, BYTES(2));
    find_fault(0, VERMOLGAS_OP_EEPROM_LOCK, 0, BYTES(2));
    find_fault(0, VERMOLGAS_OP_GPIO_PIN_CONFIG, 0, BYTES(88, 2, 2, 2));
    find_fault(1, VERMOLGAS_OP_GPIO_PIN_CONFIG, 0, BYTES(87, 2, 2, 2));
    find_fault(2, VERMOLGAS_OP_GPIO_PIN_CONFIG, 0, BYTES(87, 1, 2, 2));
    find_fault(3, VERMOLGAS_OP_GPIO_PIN_CONFIG, 0, BYTES(87, 1, 1, 2));
    find_fault(0, VERMOLGAS_OP_GPIO_PIN, 0, BYTES(88, 2));
    find_fault(1, VERMOLGAS_OP_GPIO_PIN, 0, BYTES(87, 2));
    find_fault(0, VERMOLGAS_OP_PWM_OUTPUT, 0, BYTES(11, 19, 0, 0, 0, 101, 2));
    find_fault(1, VERMOLGAS_OP_PWM_OUTPUT, 0, BYTES(13, 19, 0, 0, 0, 101, 2));
    find_fault(1, VERMOLGAS_OP_PWM_OUTPUT, 0, BYTES(13, 20, 0, 0, 1, 100, 1));
    find_fault(5, VERMOLGAS_OP_PWM_OUTPUT, 0, BYTES(13, 20, 0, 0, 0, 101, 2));
    find_fault(6, VERMOLGAS_OP_PWM_OUTPUT, 0, BYTES(13, 20, 0, 0, 0, 100, 2));
    for (size_t field = sizeof uart; field-- > 0;) {
        uart[field]++; /* each takes what stands here, and no more; those behind are at fault already */
        find_fault(field, VERMOLGAS_OP_UART, 0, uart, sizeof uart);
    }
    find_fault(0, VERMOLGAS_OP_SMOOTH_WARP_TABLE, 0, BYTES(2, 6));
    find_fault(1, VERMOLGAS_OP_SMOOTH_WARP_TABLE, 0, BYTES(5, 6));
    find_fault(0, VERMOLGAS_OP_GPIO_PIN_CONFIG, VERMOLGAS_OPTION_READ, BYTES(88));
    find_fault(0, VERMOLGAS_OP_GPIO_PIN, VERMOLGAS_OPTION_READ, BYTES(88));
    find_fault(0, VERMOLGAS_OP_PWM_OUTPUT, VERMOLGAS_OPTION_READ, BYTES(12));
    find_fault(0, VERMOLGAS_OP_UART, VERMOLGAS_OPTION_READ, BYTES(3));
    find_fault(2, VERMOLGAS_OP_WARP_TABLE, VERMOLGAS_OPTION_READ, BYTES(0xFF, 0xFF, 128, 0));
    find_fault(0, VERMOLGAS_OP_GAINS, VERMOLGAS_OPTION_READ, BYTES(0, 0, 0, 255, 0));
    find_fault(3, VERMOLGAS_OP_GAINS, VERMOLGAS_OPTION_READ, BYTES(3, 0, 0, 255, 0));
}

/* Control points: mode, columns, rows, and each entry that has one before it in its list. */
static void find_entries(void)
{
    uint8_t lists[1 + 2 * 94] = {VERMOLGAS_CONTROL_POINTS_LISTED};

    CHECK(vermolgas_reset(LENT) == VERMOLGAS_ACCEPTED);
    find_fault(0, VERMOLGAS_OP_CONTROL_POINTS, 0, BYTES(2));
    find_fault(0, VERMOLGAS_OP_CONTROL_POINTS, 0, BYTES(2, 1, 0, 1, 0));
    find_fault(1, VERMOLGAS_OP_CONTROL_POINTS, 0, BYTES(0, 63, 0, 33, 0));
    find_fault(1, VERMOLGAS_OP_CONTROL_POINTS, 0, BYTES(0, 62, 1, 32, 0));
    find_fault(3, VERMOLGAS_OP_CONTROL_POINTS, 0, BYTES(0, 62, 0, 33, 0));
    find_fault(3, VERMOLGAS_OP_CONTROL_POINTS, 0, lists, sizeof lists); /* all entries are 0 */
    for (size_t entry = 0; entry < 94; entry++)
        lists[1 + 2 * entry] = (uint8_t)(entry < 62 ? entry : entry - 62);
    for (size_t entry = 1; entry < 94; entry++) {
        if (entry == 62)
            continue;
        lists[1 + 2 * entry]--;
        find_fault(1 + 2 * entry, VERMOLGAS_OP_CONTROL_POINTS, 0, lists, sizeof lists);
        lists[1 + 2 * entry]++;
    }
}

/* Gains: flag, colour, count, and each word, by itself and in pairs. */
static void find_words(void)
{
    uint8_t data[6 + 2 * 250] = {0, 0, 250};

    CHECK(vermolgas_reset(LENT) == VERMOLGAS_ACCEPTED);
    find_fault(0, VERMOLGAS_OP_GAINS, 0, BYTES(2, 4, 0, 0, 0, 0));
    find_fault(1, VERMOLGAS_OP_GAINS, 0, BYTES(1, 4, 0, 0, 0, 0));
    find_fault(2, VERMOLGAS_OP_GAINS, 0, BYTES(1, 3, 0, 0, 0xFF, 0xFF));
    for (size_t word = 0; word < 250; word++) {
        data[6 + 2 * word + 1] = 0x20;
        find_fault(6 + 2 * word, VERMOLGAS_OP_GAINS, 0, data, sizeof data);
        data[6 + 2 * word + 1] = 0;
    }
    data[0] = VERMOLGAS_GAINS_COMPRESSED;
    for (size_t word = 0; word < 250; word += 2)
        data[6 + 2 * word] = 1; /* a run */
    for (size_t word = 0; word < 250; word++) {
        data[6 + 2 * word + 1] = 0x20; /* a run, or a gain, that is too large */
        find_fault(6 + 2 * word, VERMOLGAS_OP_GAINS, 0, data, sizeof data);
        data[6 + 2 * word + 1] = 0;
    }
    data[6 + 2 * 100] = 0; /* a run of 0, and a gain behind it */
    data[6 + 2 * 101 + 1] = 0xFF;
    find_fault(6 + 2 * 100, VERMOLGAS_OP_GAINS, 0, data, sizeof data);
}

/* Other refusals have no place, and no data in their reply, whatever their values. */
static void miss_faults(void)
{
    CHECK(vermolgas_reset(LENT) == VERMOLGAS_ACCEPTED);
    CHECK(VERMOLGAS_FAULT_PLACE(vermolgas_read(BYTES(0x14, 0x2B, 8, 0, 0, 4, 2, 0, 0, 0, 0, 0x20))) == 0);
    CHECK(vermolgas_read(BYTES(0x04, 0x6D, 0x00, 0x02, 0x0C)) == VERMOLGAS_REFUSED_SIZE);
    CHECK(vermolgas_read(BYTES(0x04, 0x2B, 0x00, 0x04)) == VERMOLGAS_REFUSED_LENGTH_MISSING);
    CHECK(send(BYTES(0x44, 0x6D, 0x00, 0x02, 0x0C)) == (VERMOLGAS_REFUSED_SIZE | replied(3)));
    CHECK(memcmp(lent.reply, (const uint8_t[]){0x09, 0x00, 0x00}, 3) == 0);
    CHECK(send(BYTES(0x44, 0x39, 0x01)) == (VERMOLGAS_REFUSED_NOT_CARRIED | replied(3)));
    CHECK(send(BYTES(0x84, 0x34, 0xC0, 0x07, 0x01, 0x00)) == (VERMOLGAS_REFUSED_PAST_TABLE | replied(3)));

    /* Of an accepted packet reading has the length of the data there. */
    uint64_t read = vermolgas_read(BYTES(0x04, 0x60, 0x01, 0x01, 0x01, 0x01));
    CHECK(VERMOLGAS_STATUS(read) == VERMOLGAS_ACCEPTED && VERMOLGAS_READ_LENGTH(read) == 4);
    CHECK(VERMOLGAS_FAULT_PLACE(send(BYTES(0x84, 0x60, 0x01))) == 0);
}

/* What compressing and splitting write. */
static struct {
    uint8_t gains[VERMOLGAS_GAIN_BYTES * VERMOLGAS_MOST_GAINS], pairs[VERMOLGAS_PAIRS_BYTES];
    uint8_t batch[VERMOLGAS_SPLIT_BATCH_BYTES];
} blend;

/* Compresses so many of the gains. */
static uint64_t compress(size_t gains)
{
    memset(blend.pairs, 0xAA, sizeof blend.pairs);
    return vermolgas_compress(blend.gains, VERMOLGAS_GAIN_BYTES * gains, blend.pairs, sizeof blend.pairs);
}

/* Splits so many of the pairs. */
static uint64_t split(uint32_t colour, uint32_t start, size_t pairs)
{
    memset(blend.batch, 0xAA, sizeof blend.batch);
    return vermolgas_split(colour, start, blend.pairs, VERMOLGAS_PAIR_BYTES * pairs, blend.batch, sizeof blend.batch);
}

static void compress_gains(void)
{
    CHECK(VERMOLGAS_PAIRS_BYTES == VERMOLGAS_PAIR_BYTES * VERMOLGAS_MOST_GAINS);
    CHECK(VERMOLGAS_GAINS_BYTES == 3 * VERMOLGAS_GAIN_BYTES * VERMOLGAS_MOST_GAINS);
    memset(blend.gains, 0, sizeof blend.gains);
    uint64_t answer = compress(VERMOLGAS_MOST_GAINS);
    CHECK(VERMOLGAS_STATUS(answer) == VERMOLGAS_ACCEPTED && VERMOLGAS_COMPRESS_PAIRS(answer) == 1);
    CHECK(memcmp(blend.pairs, (const uint8_t[]){0xE0, 0x07, 0x00, 0x00, 0xAA}, 5) == 0);

    /* Gains 0, 8191, 8191, 1. */
    memcpy(blend.gains, (const uint8_t[]){0x00, 0x00, 0xFF, 0x1F, 0xFF, 0x1F, 0x01, 0x00}, 8);
    answer = compress(4);
    CHECK(answer == UINT64_C(3) << 8 && VERMOLGAS_COMPRESS_PAIRS(answer) == 3);
    CHECK(memcmp(blend.pairs, (const uint8_t[]){1, 0, 0x00, 0x00, 2, 0, 0xFF, 0x1F, 1, 0, 0x01, 0x00, 0xAA}, 13) == 0);

    for (size_t i = 0; i < VERMOLGAS_MOST_GAINS; i++) {
        blend.gains[2 * i] = (uint8_t)i;
        blend.gains[2 * i + 1] = (uint8_t)(i >> 8);
    }
    CHECK(VERMOLGAS_COMPRESS_PAIRS(compress(VERMOLGAS_MOST_GAINS)) == VERMOLGAS_MOST_GAINS);
    CHECK(memcmp(blend.pairs + sizeof blend.pairs - 4, (const uint8_t[]){1, 0, 0xDF, 0x07}, 4) == 0);
}

static void refuse_gains(void)
{
    const uint8_t *gains = blend.gains;
    uint8_t *pairs = blend.pairs;
    size_t least = VERMOLGAS_PAIRS_BYTES;
    uint8_t longer[VERMOLGAS_GAIN_BYTES * (VERMOLGAS_MOST_GAINS + 1)] = {0};

    CHECK(least == 8064);
    CHECK(compress(0) == VERMOLGAS_REFUSED_RANGE && pairs[0] == 0xAA);
    CHECK(vermolgas_compress(gains, 3, pairs, least) == VERMOLGAS_REFUSED_RANGE);
    CHECK(vermolgas_compress(longer, sizeof longer, pairs, least) == VERMOLGAS_REFUSED_RANGE);
    CHECK(vermolgas_compress(longer, sizeof longer, NULL, 0) == VERMOLGAS_REFUSED_RANGE);
    CHECK(vermolgas_compress((const uint8_t[]){0x00, 0x20}, 2, pairs, least) == VERMOLGAS_REFUSED_RANGE);
    CHECK(vermolgas_compress((const uint8_t[]){0x00, 0x20}, 2, pairs, least - 1) == VERMOLGAS_REFUSED_RANGE);
    CHECK(vermolgas_compress((const uint8_t[]){0xFF, 0x1F}, 2, pairs, least - 1) == VERMOLGAS_REFUSED_LENT);
    CHECK(vermolgas_compress((const uint8_t[]){0xFF, 0x1F}, 2, NULL, 0) == VERMOLGAS_REFUSED_LENT);
    CHECK(vermolgas_compress(NULL, 0, NULL, 0) == VERMOLGAS_REFUSED_RANGE);
    CHECK(pairs[0] == 0xAA && pairs[least - 1] == 0xAA);
}

/* So many pairs of run 1, with gains that count from 0. */
static void fill_pairs(size_t pairs)
{
    for (size_t i = 0; i < pairs; i++)
        memcpy(blend.pairs + VERMOLGAS_PAIR_BYTES * i, (const uint8_t[]){1, 0, (uint8_t)i, (uint8_t)(i >> 8)}, 4);
}

static void split_pairs(void)
{
    fill_pairs(VERMOLGAS_MOST_GAINS);
    uint64_t answer = split(VERMOLGAS_GAIN_GREEN, 258, 2);
    CHECK(VERMOLGAS_STATUS(answer) == VERMOLGAS_ACCEPTED);
    CHECK(VERMOLGAS_SPLIT_PACKETS(answer) == 1 && VERMOLGAS_SPLIT_BYTES(answer) == 18);
    CHECK(memcmp(blend.batch,
                 (const uint8_t[]){0x14, 0x2B, 14, 0, 1, 2, 4, 0, 0x02, 0x01, 1, 0, 0, 0, 1, 0, 1, 0, 0xAA}, 19) == 0);

    answer = split(VERMOLGAS_GAIN_ALL, 7, VERMOLGAS_SPLIT_PACKET_PAIRS + 1);
    CHECK(VERMOLGAS_SPLIT_PACKETS(answer) == 2);
    CHECK(VERMOLGAS_SPLIT_BYTES(answer) == VERMOLGAS_SPLIT_PACKET_BYTES + 14);
    CHECK(memcmp(blend.batch, (const uint8_t[]){0x14, 0x2B, 0xFA, 0x01, 1, 0, 250, 0, 7, 0}, 10) == 0);
    CHECK(memcmp(blend.batch + VERMOLGAS_SPLIT_PACKET_BYTES,
                 (const uint8_t[]){0x14, 0x2B, 10, 0, 1, 0, 2, 0, 132, 0, 1, 0, 125, 0, 0xAA}, 15) == 0);

    /* As many pairs as there are gains fill the batch; the front end takes the packets. */
    CHECK(vermolgas_reset(LENT) == VERMOLGAS_ACCEPTED);
    answer = split(VERMOLGAS_GAIN_BLUE, 0, VERMOLGAS_MOST_GAINS);
    CHECK(VERMOLGAS_SPLIT_PACKETS(answer) == 17 && VERMOLGAS_SPLIT_BYTES(answer) == VERMOLGAS_SPLIT_BATCH_BYTES);
    for (size_t at = 0; at < VERMOLGAS_SPLIT_BATCH_BYTES; at += VERMOLGAS_SPLIT_PACKET_BYTES) {
        size_t left = VERMOLGAS_SPLIT_BATCH_BYTES - at;
        CHECK(send(blend.batch + at, left < VERMOLGAS_SPLIT_PACKET_BYTES ? left : VERMOLGAS_SPLIT_PACKET_BYTES) == 0);
    }
    for (size_t i = 0; i < VERMOLGAS_MOST_GAINS; i++)
        CHECK(memcmp(lent.gains + 2 * (2 * VERMOLGAS_MOST_GAINS + i), blend.pairs + 4 * i + 2, 2) == 0);
}

static void refuse_splits(void)
{
    size_t least = VERMOLGAS_SPLIT_BATCH_BYTES;

    CHECK(least == 8234);
    fill_pairs(VERMOLGAS_MOST_GAINS);
    CHECK(vermolgas_split(4, UINT32_MAX, blend.pairs, 5, NULL, 0) == VERMOLGAS_REFUSED_SIZE);
    CHECK(vermolgas_split(4, UINT32_MAX, NULL, 0, NULL, 0) == VERMOLGAS_REFUSED_RANGE);
    CHECK(split(0, 0, 0) == VERMOLGAS_REFUSED_RANGE);
    CHECK(split(4, 2016, 1) == VERMOLGAS_REFUSED_RANGE);
    CHECK(split(256, 0, 1) == VERMOLGAS_REFUSED_RANGE);
    CHECK(split(3, 1, VERMOLGAS_MOST_GAINS) == VERMOLGAS_REFUSED_PAST_TABLE);
    CHECK(split(3, 2016, 1) == VERMOLGAS_REFUSED_PAST_TABLE);
    CHECK(split(3, 0x10000, 1) == VERMOLGAS_REFUSED_PAST_TABLE);
    CHECK(split(3, UINT32_MAX, 1) == VERMOLGAS_REFUSED_PAST_TABLE);
    CHECK(vermolgas_split(3, 2016, blend.pairs, 4, NULL, 0) == VERMOLGAS_REFUSED_PAST_TABLE);
    CHECK(vermolgas_split(3, 2015, blend.pairs, 4, blend.batch, least - 1) == VERMOLGAS_REFUSED_LENT);
    CHECK(vermolgas_split(3, 2015, blend.pairs, 4, NULL, 0) == VERMOLGAS_REFUSED_LENT);
    blend.pairs[0] = 0; /* a run of 0 */
    CHECK(split(3, 2016, 2) == VERMOLGAS_REFUSED_RANGE);
    memcpy(blend.pairs, (const uint8_t[]){0xE1, 0x07, 0, 0}, 4); /* of 2,017 */
    CHECK(split(3, 0, 1) == VERMOLGAS_REFUSED_RANGE);
    memcpy(blend.pairs, (const uint8_t[]){1, 0, 0x00, 0x20}, 4); /* a gain of 8,192 */
    CHECK(split(3, 0, 1) == VERMOLGAS_REFUSED_RANGE);
    CHECK(blend.batch[0] == 0xAA && blend.batch[least - 1] == 0xAA);
}

/* The row mark as it lies in the block. */
static uint32_t mark(void)
{
    uint32_t bits = 0;
    for (size_t i = 0; i < VERMOLGAS_MARK_BYTES; i++)
        bits |= (uint32_t)lent.block[VERMOLGAS_MARK_OFFSET + i] << 8 * i;
    return bits;
}

static uint64_t rows(void)
{
    return vermolgas_rows(lent.block, sizeof lent.block);
}

/* Points of rows 1 and 31, shapes and apply. */
static void mark_rows(void)
{
    memset(&lent, 0xAA, sizeof lent);
    CHECK(vermolgas_reset(LENT) == VERMOLGAS_ACCEPTED);
    CHECK(rows() == (uint64_t)VERMOLGAS_NO_ROW << 16 && VERMOLGAS_ROWS_LOWEST(rows()) == VERMOLGAS_NO_ROW);
    CHECK(send(BYTES(0x14, 0x34, 0x06, 0x00, 0x3E, 0x00, 0x01, 0x00, 0x00, 0x00)) == replied(0));
    CHECK(mark() == 2 && rows() == (1u << 8 | 1u << 16));
    CHECK(send(BYTES(0x14, 0x34, 0x06, 0x00, 0xBF, 0x07, 0x00, 0x00, 0x00, 0x01)) == replied(0));
    CHECK(mark() == 0x80000002 && VERMOLGAS_STATUS(rows()) == VERMOLGAS_ACCEPTED);
    CHECK(VERMOLGAS_ROWS_MARKED(rows()) == 2 && VERMOLGAS_ROWS_LOWEST(rows()) == 1);
    CHECK(send(BYTES(0x14, 0x34, 0x06, 0x00, 0x3E, 0x00, 0x00, 0x00, 0x00, 0x00)) == replied(0));
    CHECK(mark() == 0x80000000 && rows() == (1u << 8 | 31u << 16));

    /* No point of fewer rows differs; with all of them point 1983 does. */
    CHECK(send(BYTES(0x14, 0x35, 0x05, 0x00, 0x00, 0x3E, 0x00, 0x1F, 0x00)) == replied(0) && mark() == 0);
    CHECK(send(BYTES(0x14, 0x35, 0x05, 0x00, 0x00, 0x3E, 0x00, 0x20, 0x00)) == replied(0) && mark() == 0x80000000);
    CHECK(send(BYTES(0x04, 0x36, 0x00)) == replied(0) && mark() == 0x80000000);
    CHECK(send(BYTES(0x04, 0x36, 0x02)) == fault_at(0) && mark() == 0x80000000);
    CHECK(send(BYTES(0x04, 0x36, 0x01)) == replied(0) && mark() == 0);
}

/* A mark that no packet made: not judged, mended where it is worked out, cleared by reset. */
static void lend_marks(void)
{
    CHECK(vermolgas_reset(LENT) == VERMOLGAS_ACCEPTED);
    memset(lent.block + VERMOLGAS_MARK_OFFSET, 0xFF, VERMOLGAS_BLOCK_BYTES - VERMOLGAS_MARK_OFFSET);
    CHECK(rows() == (uint64_t)VERMOLGAS_MOST_ROWS << 8 && VERMOLGAS_ROWS_MARKED(rows()) == 32);
    CHECK(send(BYTES(0x04, 0x11, 0x01)) == replied(0) && send(BYTES(0x84, 0x34, 0x00, 0x00, 0x01, 0x00)) == replied(7));
    CHECK(send(BYTES(0x14, 0x34, 0x06, 0x00, 0xC0, 0x07, 0x00, 0x00, 0x00, 0x00)) == VERMOLGAS_REFUSED_PAST_TABLE);
    CHECK(mark() == 0xFFFFFFFF);
    CHECK(send(BYTES(0x14, 0x34, 0x06, 0x00, 0x3D, 0x00, 0x00, 0x00, 0x00, 0x00)) == replied(0));
    CHECK(mark() == 0xFFFFFFFE && VERMOLGAS_ROWS_LOWEST(rows()) == 1);
    CHECK(send(BYTES(0x14, 0x35, 0x05, 0x00, 0x00, 0x02, 0x00, 0x02, 0x00)) == replied(0) && mark() == 0);
    CHECK(lent.block[VERMOLGAS_MARK_OFFSET + VERMOLGAS_MARK_BYTES] == 0xFF);
    CHECK(lent.block[VERMOLGAS_BLOCK_BYTES - 1] == 0xFF);

    /* Nothing else of the block is looked at, but its length. */
    memset(lent.block, 0xFF, sizeof lent.block);
    CHECK(rows() == (uint64_t)VERMOLGAS_MOST_ROWS << 8);
    CHECK(vermolgas_rows(lent.block, sizeof lent.block - 1) == VERMOLGAS_REFUSED_LENT);
    CHECK(vermolgas_rows(lent.block, 0) == VERMOLGAS_REFUSED_LENT && vermolgas_rows(NULL, 0) == VERMOLGAS_REFUSED_LENT);
    CHECK(vermolgas_reset(LENT) == VERMOLGAS_ACCEPTED && mark() == 0);
}

static const struct group groups[] = {
    {"reset", reset_controllers},     {"packets", send_packets},           {"packets refused", refuse_sent_packets},
    {"reading", read_packets},        {"reading refused", refuse_packets}, {"making", make_packets},
    {"replies", read_replies},        {"checksums", compare_checksums},    {"plans", plan_uploads},
    {"room and choices", fill_rooms}, {"plans refused", refuse_plans},     {"pairs", send_pairs},
    {"pairs refused", refuse_pairs},  {"fields at fault", find_faults},    {"entries at fault", find_entries},
    {"words at fault", find_words},   {"no place", miss_faults},           {"compressing", compress_gains},
    {"compressing refused", refuse_gains}, {"splitting", split_pairs},     {"splitting refused", refuse_splits},
    {"rows marked", mark_rows},       {"marks lent", lend_marks},
};

int main(void)
{
    return RUN_GROUPS(groups);
}
