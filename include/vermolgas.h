/* Vermolgas: the projector front end, its packets, the planning of uploads and the compression of gains, for C and C++.
 *
 * Link with libvermolgas.a (x86-64).
 *
 * Every slice is a pointer and then its length in bytes. Every entry takes any bytes and any lengths. What the caller
 * sees to:
 *
 * - A buffer that is written overlaps no other buffer of the call. Buffers that are only read may overlap.
 * - A pointer is to as many bytes as the length behind it says. With length 0 it may be any pointer, NULL too.
 *
 * No entry keeps anything between calls: all state is in the buffers lent to it.
 *
 * Every answer is one number. Its low byte is 0 if the call was accepted, else the number of the refusal: take it out
 * with VERMOLGAS_STATUS, for a refusal may have other bits, too. Where a packet is refused with 10, by
 * vermolgas_packet, vermolgas_read or vermolgas_make, VERMOLGAS_FAULT_PLACE says where in its data the field at fault
 * begins; what is not named is reserved. After a refusal every buffer is unchanged; vermolgas_packet alone still writes its
 * reply, and answers its length. The macros below take an answer apart; each uses its argument once. Keep an answer in
 * a uint64_t: compilers warn where one is ignored, the macros do not compile on fewer bits, and -Wconversion warns
 * where bits are lost.
 *
 * vermolgas_device.h lends all of it in one argument, and answers in structs. docs/INTERFACE.md has the commands and
 * what each may carry, docs/LAYOUT.md the settings block, docs/RULES.md the rules.
 */
#ifndef VERMOLGAS_H
#define VERMOLGAS_H

#include <stddef.h>
#include <stdint.h>

/* The version, and as one number to compare with: 1.2.3 is 10203. */
#define VERMOLGAS_VERSION_MAJOR 0
#define VERMOLGAS_VERSION_MINOR 6
#define VERMOLGAS_VERSION_PATCH 0
#define VERMOLGAS_VERSION                                                                                             \
    (10000 * VERMOLGAS_VERSION_MAJOR + 100 * VERMOLGAS_VERSION_MINOR + VERMOLGAS_VERSION_PATCH)

/* In front of a function: its answer is not to be ignored. */
#if (defined(__cplusplus) && __cplusplus >= 201703L) || (defined(__STDC_VERSION__) && __STDC_VERSION__ > 201710L)
#define VERMOLGAS_NODISCARD [[nodiscard]]
#elif defined(__GNUC__)
#define VERMOLGAS_NODISCARD __attribute__((warn_unused_result))
#else
#define VERMOLGAS_NODISCARD
#endif

/* A cast, and an enum, that are right in both languages. In C++ an enum is given its type, so that it may hold any
 * number, as in C, and a wrong one is refused instead of undefined. */
#ifdef __cplusplus
#define VERMOLGAS_CAST(type, value) static_cast<type>(value)
#define VERMOLGAS_ENUM(name)        enum name : unsigned
#else
#define VERMOLGAS_CAST(type, value) ((type)(value))
#define VERMOLGAS_ENUM(name)        enum name
#endif

#ifdef __cplusplus
extern "C" {
#endif

/* Refusals, in the order in which vermolgas_packet tries them. */
VERMOLGAS_ENUM(vermolgas_refusal) {
    VERMOLGAS_ACCEPTED = 0,
    VERMOLGAS_REFUSED_LENT = 1,           /* wrong length of what is lent, or a setting out of range */
    VERMOLGAS_REFUSED_TOO_SHORT = 2,      /* fewer bytes than the header announces, or none */
    VERMOLGAS_REFUSED_TOO_LONG = 3,       /* over 512 bytes */
    VERMOLGAS_REFUSED_LENGTH = 4,         /* the length field is not the number of data bytes */
    VERMOLGAS_REFUSED_CHECKSUM = 5,       /* the checksum is wrong */
    VERMOLGAS_REFUSED_DESTINATION = 6,    /* the destination is not 4 */
    VERMOLGAS_REFUSED_OPCODE = 7,         /* the opcode is not carried */
    VERMOLGAS_REFUSED_LENGTH_MISSING = 8, /* 2Bh, 34h, 35h or 38h is written without a length field */
    VERMOLGAS_REFUSED_SIZE = 9,           /* wrong size of the data, or a gain count not that of its words, or odd with pairs */
    VERMOLGAS_REFUSED_RANGE = 10,         /* some value out of its range, or reserved: see VERMOLGAS_FAULT_PLACE */
    VERMOLGAS_REFUSED_NOT_CARRIED = 11,   /* merge mode */
    VERMOLGAS_REFUSED_PAST_TABLE = 12     /* start + count, or start + runs, past the end of their table */
};

/* The commands carried, with the guides' names. */
VERMOLGAS_ENUM(vermolgas_opcode) {
    VERMOLGAS_OP_DISPLAY = 0x11,           /* Display */
    VERMOLGAS_OP_LOW_LATENCY = 0x12,       /* Enable Low Latency Mode */
    VERMOLGAS_OP_LOOK = 0x13,              /* System Look */
    VERMOLGAS_OP_CURTAIN = 0x1A,           /* Curtain Color */
    VERMOLGAS_OP_SPLASH = 0x1B,            /* Splash Load Image */
    VERMOLGAS_OP_FLIP = 0x1C,              /* Enable Image Flip */
    VERMOLGAS_OP_FREEZE = 0x1D,            /* Enable Freeze */
    VERMOLGAS_OP_GAINS = 0x2B,             /* Blend Map Gain Values */
    VERMOLGAS_OP_WARP_TABLE = 0x34,        /* Manual Warp Table */
    VERMOLGAS_OP_CONTROL_POINTS = 0x35,    /* Manual Warp Control Points */
    VERMOLGAS_OP_APPLY_WARPING = 0x36,     /* Apply Manual Warping */
    VERMOLGAS_OP_SMOOTH_WARP_TABLE = 0x38, /* Smooth Warp Table */
    VERMOLGAS_OP_UPDATE_MODE = 0x39,       /* Manual Warp Table Update Mode */
    VERMOLGAS_OP_GPIO_PIN_CONFIG = 0x60,   /* GPIO Pin Config */
    VERMOLGAS_OP_GPIO_PIN = 0x61,          /* GPIO Pin */
    VERMOLGAS_OP_PWM_OUTPUT = 0x65,        /* PWM Output Configuration */
    VERMOLGAS_OP_EEPROM_LOCK = 0x6C,       /* EEPROM Lock State */
    VERMOLGAS_OP_UART = 0x6D               /* UART Configuration */
};

/* Values that have names. What the guides name and a packet may not carry is left out; the comments say where. */

/* 11h: what is shown. */
VERMOLGAS_ENUM(vermolgas_display) {
    VERMOLGAS_DISPLAY_EXTERNAL = 0,
    VERMOLGAS_DISPLAY_TEST_PATTERN = 1,
    VERMOLGAS_DISPLAY_SOLID_FIELD = 2,
    VERMOLGAS_DISPLAY_SPLASH = 3,
    VERMOLGAS_DISPLAY_CURTAIN = 4
};

/* 1Ah: the curtain's colour. 1, 9 and 10 are reserved: refusal 10. */
VERMOLGAS_ENUM(vermolgas_curtain) {
    VERMOLGAS_CURTAIN_BLACK = 0,
    VERMOLGAS_CURTAIN_WHITE = 2,
    VERMOLGAS_CURTAIN_GREEN = 3,
    VERMOLGAS_CURTAIN_RED = 4,
    VERMOLGAS_CURTAIN_BLUE = 5,
    VERMOLGAS_CURTAIN_YELLOW = 6,
    VERMOLGAS_CURTAIN_CYAN = 7,
    VERMOLGAS_CURTAIN_MAGENTA = 8
};

/* 1Bh: the splash image that was captured; the others count from 0. */
#define VERMOLGAS_SPLASH_CAPTURED 0xFF

/* 1Ch: how the image is flipped. */
VERMOLGAS_ENUM(vermolgas_flip) {
    VERMOLGAS_FLIP_NONE = 0,
    VERMOLGAS_FLIP_VERTICAL = 1,
    VERMOLGAS_FLIP_HORIZONTAL = 2,
    VERMOLGAS_FLIP_BOTH = 3
};

/* 2Bh: whose gains. All three at once is for writes; a read of it is refusal 10. */
VERMOLGAS_ENUM(vermolgas_gain_colour) {
    VERMOLGAS_GAIN_ALL = 0,
    VERMOLGAS_GAIN_RED = 1,
    VERMOLGAS_GAIN_GREEN = 2,
    VERMOLGAS_GAIN_BLUE = 3
};

#define VERMOLGAS_GAIN_ONE     4096 /* a gain of 1.0 */
#define VERMOLGAS_GAIN_HIGHEST 8191

/* 2Bh: whether the words of a write are gains, or pairs of a run, 1 to 2,016, and the gain that it repeats.
 * vermolgas_compress and vermolgas_split make such writes. */
VERMOLGAS_ENUM(vermolgas_gain_words) { VERMOLGAS_GAINS_PLAIN = 0, VERMOLGAS_GAINS_COMPRESSED = 1 };

/* 35h: control points evenly over the image, in columns and rows; or 62 and 32 listed. */
VERMOLGAS_ENUM(vermolgas_control_points) {
    VERMOLGAS_CONTROL_POINTS_EVEN = 0,
    VERMOLGAS_CONTROL_POINTS_LISTED = 1
};

/* 39h: a new map takes the place of the old one. To merge them, 1, is refusal 11. */
VERMOLGAS_ENUM(vermolgas_update_mode) { VERMOLGAS_UPDATE_OVERWRITE = 0 };

/* 60h and 61h: direction, level and drain of pins 0 to 87. */
VERMOLGAS_ENUM(vermolgas_gpio_direction) { VERMOLGAS_GPIO_INPUT = 0, VERMOLGAS_GPIO_OUTPUT = 1 };
VERMOLGAS_ENUM(vermolgas_gpio_level) { VERMOLGAS_GPIO_LOW = 0, VERMOLGAS_GPIO_HIGH = 1 };
VERMOLGAS_ENUM(vermolgas_gpio_drain) { VERMOLGAS_GPIO_STANDARD = 0, VERMOLGAS_GPIO_OPEN_DRAIN = 1 };

/* 65h: outputs, colour wheels, and the port of Dynamic Black where that does not use it. The inputs, 11 and 12, and the
 * invalid port, 14, are refusal 10. */
VERMOLGAS_ENUM(vermolgas_pwm_port) {
    VERMOLGAS_PWM_OUTPUT_0 = 0,
    VERMOLGAS_PWM_OUTPUT_1 = 1,
    VERMOLGAS_PWM_OUTPUT_2 = 2,
    VERMOLGAS_PWM_OUTPUT_3 = 3,
    VERMOLGAS_PWM_OUTPUT_4 = 4,
    VERMOLGAS_PWM_OUTPUT_5 = 5,
    VERMOLGAS_PWM_OUTPUT_6 = 6,
    VERMOLGAS_PWM_OUTPUT_7 = 7,
    VERMOLGAS_PWM_WHEEL_0 = 8,
    VERMOLGAS_PWM_WHEEL_1 = 9,
    VERMOLGAS_PWM_WHEEL_2 = 10,
    VERMOLGAS_PWM_DYNAMIC_BLACK = 13
};

/* 6Ch. */
VERMOLGAS_ENUM(vermolgas_eeprom) { VERMOLGAS_EEPROM_UNLOCKED = 0, VERMOLGAS_EEPROM_LOCKED = 1 };

/* 6Dh: fields of ports 0 to 2, in the order of the data. */
VERMOLGAS_ENUM(vermolgas_uart_baud) {
    VERMOLGAS_UART_BAUD_1200 = 0,
    VERMOLGAS_UART_BAUD_2400 = 1,
    VERMOLGAS_UART_BAUD_4800 = 2,
    VERMOLGAS_UART_BAUD_9600 = 3,
    VERMOLGAS_UART_BAUD_14400 = 4,
    VERMOLGAS_UART_BAUD_19200 = 5,
    VERMOLGAS_UART_BAUD_38400 = 6,
    VERMOLGAS_UART_BAUD_57600 = 7,
    VERMOLGAS_UART_BAUD_115200 = 8,
    VERMOLGAS_UART_BAUD_230400 = 9,
    VERMOLGAS_UART_BAUD_460800 = 10,
    VERMOLGAS_UART_BAUD_921600 = 11
};
VERMOLGAS_ENUM(vermolgas_uart_bits) {
    VERMOLGAS_UART_BITS_5 = 0,
    VERMOLGAS_UART_BITS_6 = 1,
    VERMOLGAS_UART_BITS_7 = 2,
    VERMOLGAS_UART_BITS_8 = 3
};
VERMOLGAS_ENUM(vermolgas_uart_stop) { VERMOLGAS_UART_STOP_1 = 0, VERMOLGAS_UART_STOP_2 = 1 };
VERMOLGAS_ENUM(vermolgas_uart_parity) {
    VERMOLGAS_UART_PARITY_NONE = 0,
    VERMOLGAS_UART_PARITY_EVEN = 1,
    VERMOLGAS_UART_PARITY_ODD = 2
};
VERMOLGAS_ENUM(vermolgas_uart_flow) { VERMOLGAS_UART_FLOW_OFF = 0, VERMOLGAS_UART_FLOW_HARDWARE = 1 };
VERMOLGAS_ENUM(vermolgas_uart_trigger) { /* of receiving, then of sending: how full the FIFO is */
    VERMOLGAS_UART_TRIGGER_EIGHTH = 0,
    VERMOLGAS_UART_TRIGGER_QUARTER = 1,
    VERMOLGAS_UART_TRIGGER_HALF = 2,
    VERMOLGAS_UART_TRIGGER_THREE_QUARTERS = 3,
    VERMOLGAS_UART_TRIGGER_SEVEN_EIGHTHS = 4
};
VERMOLGAS_ENUM(vermolgas_uart_polarity) { VERMOLGAS_UART_POLARITY_NORMAL = 0, VERMOLGAS_UART_POLARITY_INVERTED = 1 };
VERMOLGAS_ENUM(vermolgas_uart_source) { VERMOLGAS_UART_SOURCE_RXD = 0, VERMOLGAS_UART_SOURCE_LAMPSTAT = 1 };

/* The longest packet and the longest reply, in bytes. */
#define VERMOLGAS_LONGEST 512

/* What a host keeps for one controller and lends with each call, in bytes. Numbers lie low byte first. */
#define VERMOLGAS_BLOCK_BYTES 1024  /* settings; the layout is in docs/ */
#define VERMOLGAS_MAP_BYTES   7936  /* a warp map, staged or live: 1,984 points, each 16 bits x and then y */
#define VERMOLGAS_GAINS_BYTES 12096 /* 2,016 gains of 16 bits for red, then for green, then for blue */
#define VERMOLGAS_REPLY_BYTES 512   /* room for every reply; a longer buffer is taken, too */

/* What upload planning is lent, in bytes. */
#define VERMOLGAS_POINT_BYTES     4    /* one point of a map, held or wanted: 16 bits x and then y */
#define VERMOLGAS_MOST_POINTS     1984 /* a full map */
#define VERMOLGAS_PLAN_LIST_BYTES 7936 /* 1,984 times a packet's start and then its count, 16 bits each */
#define VERMOLGAS_ROOM_BYTES      508  /* working room, 127 numbers of 32 bits; a longer one is taken, too */
#define VERMOLGAS_CHOICES_BYTES   1984 /* a byte for each point of a full map; more are taken, too */
#define VERMOLGAS_BATCH_BYTES     8032 /* room for every batch; a longer buffer is taken, too */

/* What compressing and splitting of gains are lent, in bytes. */
#define VERMOLGAS_GAIN_BYTES        2    /* one gain, 16 bits */
#define VERMOLGAS_MOST_GAINS        2016 /* the gains of one colour, and so the longest run */
#define VERMOLGAS_PAIR_BYTES        4    /* one pair: 16 bits run and then 16 bits gain */
#define VERMOLGAS_PAIRS_BYTES       8064 /* room for every list of pairs, 2,016 of them; a longer one is taken, too */
#define VERMOLGAS_SPLIT_BATCH_BYTES 8234 /* room for the packets of every list of pairs; a longer one is taken, too */

/* Splitting: the pairs and the bytes of every packet but the last. */
#define VERMOLGAS_SPLIT_PACKET_PAIRS 125
#define VERMOLGAS_SPLIT_PACKET_BYTES 510

/* Header bits, in place: what VERMOLGAS_READ_OPTIONS gives and vermolgas_make takes. */
#define VERMOLGAS_OPTION_TWO_BYTE_OPCODE 0x08
#define VERMOLGAS_OPTION_LENGTH          0x10 /* the packet has a length field */
#define VERMOLGAS_OPTION_CHECKSUM        0x20 /* packet and reply have a checksum, see below */
#define VERMOLGAS_OPTION_REPLY           0x40 /* a write is to be replied to */
#define VERMOLGAS_OPTION_READ            0x80 /* a read; else a write */

/* The checksum is the low byte of the second of two sums over all bytes before it, both 0 at first: a step adds a byte
 * to the first sum, and the first sum to the second. The entries write it and compare it. */

/* Some bits of an answer. One that was kept in fewer than 64 bits, in an int say, has lost some of them and does not
 * compile here: the array would have a negative size. */
#define VERMOLGAS_ANSWER_OF_64_BITS(answer)                                                                           \
    (VERMOLGAS_CAST(uint64_t, answer) + (sizeof(char[sizeof(answer) == 8 ? 1 : -1]) - 1))
#define VERMOLGAS_FIELD(type, answer, shift, mask)                                                                    \
    VERMOLGAS_CAST(type, VERMOLGAS_ANSWER_OF_64_BITS(answer) >> (shift) & (mask))

/* Any answer: 0 or the refusal. */
#define VERMOLGAS_STATUS(answer) VERMOLGAS_FIELD(unsigned, answer, 0, 0xFFu)

/* The place of the fault, for an answer of vermolgas_packet, vermolgas_read or vermolgas_make whose status is 10: where
 * in the packet's data the first field begins whose value is out of range. Data begins behind the header, the opcode
 * and the length field, if there is one; these do not count. In 6Dh the port is byte 0 and the parity byte 5, in 65h
 * the frequency byte 1, whichever of its four is wrong. Counting from 0, entry k of the 94 in both lists of 35h is at
 * byte 1 + 2 x k, and is at fault if it is no greater than its predecessor in its own list (entries 0 and 62 have
 * none). In 2Bh word k is at byte 6 + 2 x k, and of a pair the run comes first.
 *
 * On any other refusal of these three it is 0. It says nothing of what was accepted: there vermolgas_read has the
 * length of the data in these bits. Refusals by 10 of the other entries are about no packet, and have no place. */
#define VERMOLGAS_FAULT_PLACE(answer) VERMOLGAS_FIELD(size_t, answer, 32, 0xFFFFu)

/* Puts a controller into its state after reset: zeros everywhere, but each gain 4096 (1.0), the warp map's shape
 * 62 x 32 and mode 0 on both sides, staged and live, control point lists counting from 0, the smooth table's shape
 * 3 x 3, and PWM frequencies 20. So no row is marked (vermolgas_rows). Every byte of the four buffers is written,
 * whatever it was.
 *
 * The lengths are VERMOLGAS_BLOCK_BYTES, VERMOLGAS_MAP_BYTES twice and VERMOLGAS_GAINS_BYTES, exactly. Any other is
 * refusal 1, and no byte is changed.
 */
VERMOLGAS_NODISCARD
uint64_t vermolgas_reset(uint8_t *block, size_t block_length, uint8_t *staged, size_t staged_length, uint8_t *live,
                         size_t live_length, uint8_t *gains, size_t gains_length);

/* Takes one packet, the whole slice given, and writes one reply or none.
 *
 * Refusal 1 comes first: a length that differs from those above (of the reply buffer, one under VERMOLGAS_REPLY_BYTES),
 * or a stored setting out of its range, staged or live. What the tables hold is not judged. Then come the refusals of
 * vermolgas_read, 2 to 11, and then 12. The number is the first that applies.
 *
 * An accepted write changes what its command names and nothing else; writes of 34h, of 35h and of 36h with 1 keep up
 * the row mark in block bytes 865 to 868, too (vermolgas_rows). An accepted read and every refusal change no byte of
 * the block and of the tables. The row mark may be any four bytes, and no reply depends on it. Block bytes without a
 * meaning, 869 to 1023, stay as they are.
 *
 * There is a reply, at the start of the reply buffer, exactly if the packet is not empty, bit 6 or bit 7 of its first
 * byte is set, and the refusal is not 1. It is the status, the length of the data in two bytes, the data, and a
 * checksum if bit 5 of the packet is set; vermolgas_read_reply reads it back. Data is what an accepted read returns,
 * or, with status 10, the place of the fault in two bytes, low byte first; no other reply has any. The buffer past the
 * reply is unchanged, and all of it if no reply is written. The answer has the reply's length, 0 for none, on a refusal
 * too, and on refusal 10 the place (VERMOLGAS_FAULT_PLACE), whether or not there is a reply.
 */
VERMOLGAS_NODISCARD
uint64_t vermolgas_packet(const uint8_t *packet, size_t packet_length, uint8_t *block, size_t block_length,
                          uint8_t *staged, size_t staged_length, uint8_t *live, size_t live_length, uint8_t *gains,
                          size_t gains_length, uint8_t *reply, size_t reply_length);

#define VERMOLGAS_PACKET_REPLY_LENGTH(answer) VERMOLGAS_FIELD(size_t, answer, 8, 0xFFFFu)

/* Counts the rows that moved: how many are marked in a block, and which is the lowest of them.
 *
 * The block has VERMOLGAS_BLOCK_BYTES, exactly, else refusal 1; nothing else of it is judged, and no byte is changed.
 *
 * The mark has a bit for each row: that of row r is bit r % 8 of block byte VERMOLGAS_MARK_OFFSET + r / 8. Point i lies
 * in row i / columns, by the shape that is staged. In a mark that is right the bit of a row is set if an apply would
 * give any of the row's live points another x or y, and else it is not set, nor is any past the last row.
 * vermolgas_packet keeps the mark up: a write of points (34h) works out the rows that they lie in, one of the shape
 * (35h) all rows, and an apply (36h with 1) clears it. So once vermolgas_reset has been called the mark is right for as
 * long as nothing but vermolgas_packet writes into the block and the maps. A host that writes there by itself may make
 * it wrong; the next write of the shape, or the next apply, makes it right. The answer is of the mark as it lies there.
 *
 * No marked row does not mean that an apply changes nothing: the shape, its mode, its lists, the points past the shape
 * and enable have no bit.
 */
VERMOLGAS_NODISCARD
uint64_t vermolgas_rows(const uint8_t *block, size_t block_length);

#define VERMOLGAS_MARK_OFFSET 865 /* in the block */
#define VERMOLGAS_MARK_BYTES  4
#define VERMOLGAS_MOST_ROWS   32 /* a bit for each */
#define VERMOLGAS_NO_ROW      32 /* in the place of the lowest marked row, if none is marked */

/* How many rows are marked, 0 to 32, and the lowest of them, or VERMOLGAS_NO_ROW. */
#define VERMOLGAS_ROWS_MARKED(answer) VERMOLGAS_FIELD(unsigned, answer, 8, 0xFFu)
#define VERMOLGAS_ROWS_LOWEST(answer) VERMOLGAS_FIELD(unsigned, answer, 16, 0xFFu)

/* Reads one packet, the whole slice given, apart from any settings. Refusals 2 to 11.
 *
 * The answer has the opcode, the header bits 3 to 7 in place, and the offset and length of the data in the packet. On
 * refusal 10 it has the place of the fault (VERMOLGAS_FAULT_PLACE), in the bits that are the length of an accepted one.
 */
VERMOLGAS_NODISCARD
uint64_t vermolgas_read(const uint8_t *packet, size_t packet_length);

#define VERMOLGAS_READ_OPCODE(answer)  VERMOLGAS_FIELD(unsigned, answer, 8, 0xFFu)
#define VERMOLGAS_READ_OPTIONS(answer) VERMOLGAS_FIELD(unsigned, answer, 16, 0xFFu)
#define VERMOLGAS_READ_OFFSET(answer)  VERMOLGAS_FIELD(size_t, answer, 24, 0xFFu)
#define VERMOLGAS_READ_LENGTH(answer)  VERMOLGAS_FIELD(size_t, answer, 32, 0xFFFFu)

/* Makes a packet at the start of the buffer; the buffer past it is unchanged.
 *
 * Options are header bits 3 to 7 in place; bits 0 to 2 are not looked at, as the destination is always 4. The length
 * field and the checksum are written if the options ask for them. Refusal 1 for a buffer under 512 bytes, else what
 * reading would give: 3, 7 (any opcode over 255 too), 8, 9, 10 with its place (VERMOLGAS_FAULT_PLACE) or 11. The answer
 * has the packet's length, 0 on a refusal. What is made, vermolgas_read reads back as it was given.
 */
VERMOLGAS_NODISCARD
uint64_t vermolgas_make(uint16_t opcode, uint8_t options, const uint8_t *data, size_t data_length, uint8_t *buffer,
                        size_t buffer_length);

#define VERMOLGAS_MAKE_LENGTH(answer) VERMOLGAS_FIELD(size_t, answer, 8, 0xFFFFu)

/* Reads one reply, the whole slice given. checksum_expected is 0 for no, any other number for yes: what the packet's
 * header asked for. Refusals 2, 3, 4, 5 and 10 (a status over 12), in this order.
 *
 * The answer has the reply's own status, 0 or a refusal of the front end, and the length of the data, which starts at
 * offset VERMOLGAS_REPLY_OFFSET of the reply. Two bytes of data with status 10 are the place of the packet's fault: it
 * stands there, and not in the answer. A controller from before version 0.5 sends none.
 */
VERMOLGAS_NODISCARD
uint64_t vermolgas_read_reply(const uint8_t *reply, size_t reply_length, uint8_t checksum_expected);

#define VERMOLGAS_REPLY_OFFSET         3
#define VERMOLGAS_REPLY_STATUS(answer) VERMOLGAS_FIELD(unsigned, answer, 8, 0xFFu)
#define VERMOLGAS_REPLY_LENGTH(answer) VERMOLGAS_FIELD(size_t, answer, 16, 0xFFFFu)

/* Plans the upload of a map: the 34h writes that turn the points held into those wanted, in the fewest bytes. No list
 * of packets that does so, whatever its packets are, has fewer bytes than the answer gives.
 *
 * points is the number of points N, 1 to VERMOLGAS_MOST_POINTS, else refusal 10; it need not be that of a shape. Then
 * refusal 1 for a wrong length: held and wanted have VERMOLGAS_POINT_BYTES for each point and plan has
 * VERMOLGAS_PLAN_LIST_BYTES, exactly; room, choices and batch have VERMOLGAS_ROOM_BYTES, VERMOLGAS_CHOICES_BYTES and
 * VERMOLGAS_BATCH_BYTES or more, of any length from there on, whatever N is. On a refusal no byte is changed. held and
 * wanted may be the same bytes. No alignment is needed: a uint32_t[127] may be lent as the room, or bytes anywhere.
 *
 * The plan is a list of packets, each by its start and its count of points, 1 to 126. Starts rise, and no two packets
 * overlap. Of all such lists of the fewest bytes it is the one with the smallest first count, then second, and so on.
 * Equal maps need no packet.
 *
 * The batch is the packets back to back, each of 6 + 4 x count bytes: header 14h, opcode 34h, length, start and the
 * points as wanted. A controller that holds the points held, and whose shape has N points, accepts each of them and
 * then holds those wanted. Together they have at most 4 x N + 6 x (N / 126 rounded up) bytes.
 *
 * Planning works in room and choices, and has no array of its own. What they hold before is not looked at, and nothing
 * in them need be kept for a later call. After success they hold what follows, and are unchanged behind it:
 *
 * - room: numbers 0 to 126 of 32 bits, low byte first. Number k is the fewest bytes for the points from k on, and 0 if
 *   there are none (k >= N). So number 0 is the bytes of the batch.
 * - choices: bytes 0 to 1,983. Byte i is the count, 1 to 126, of the packet with which the points from i on are best
 *   begun: the smallest of the counts that cost fewest bytes, together with what is left behind the packet. It is 0 if
 *   point i does not differ, and from N on. Followed from byte 0 they give the plan: at a 0 go on to the next point,
 *   else a packet of so many points starts here, and the next point is the one behind it.
 *
 * Plan and batch are unchanged past the packets that the answer counts.
 */
VERMOLGAS_NODISCARD
uint64_t vermolgas_plan(uint32_t points, const uint8_t *held, size_t held_length, const uint8_t *wanted,
                        size_t wanted_length, uint8_t *plan, size_t plan_length, uint8_t *room, size_t room_length,
                        uint8_t *choices, size_t choices_length, uint8_t *batch, size_t batch_length);

/* The packets of the plan, and the bytes of the batch. */
#define VERMOLGAS_PLAN_PACKETS(answer) VERMOLGAS_FIELD(size_t, answer, 8, 0xFFFFFFu)
#define VERMOLGAS_PLAN_BYTES(answer)   VERMOLGAS_FIELD(size_t, answer, 32, 0xFFFFFFFFu)

/* Compresses gains: pairs of a run and a gain that stand for them in order, as few as there can be. No list of pairs
 * that stands for the same gains is shorter.
 *
 * gains are 1 to VERMOLGAS_MOST_GAINS numbers of 16 bits, each at most VERMOLGAS_GAIN_HIGHEST. Refusal 10 for another
 * number of them, an odd number of bytes or a higher gain, and then 1 for pairs of fewer than VERMOLGAS_PAIRS_BYTES,
 * however few of them are needed. The answer has the number of pairs, 0 on a refusal. The buffer is unchanged behind
 * the pairs, and all of it on a refusal.
 */
VERMOLGAS_NODISCARD
uint64_t vermolgas_compress(const uint8_t *gains, size_t gains_length, uint8_t *pairs, size_t pairs_length);

/* The pairs written, VERMOLGAS_PAIR_BYTES each. */
#define VERMOLGAS_COMPRESS_PAIRS(answer) VERMOLGAS_FIELD(size_t, answer, 8, 0xFFFFFFu)

/* Splits pairs into packets: 2Bh writes of compressed gains for a colour, from a start on. Any pairs will do, those of
 * vermolgas_compress or others.
 *
 * Refusals, in this order: 9 if the bytes of pairs are no multiple of VERMOLGAS_PAIR_BYTES; 10 for no pairs, a colour
 * over VERMOLGAS_GAIN_BLUE, a run of 0 or over VERMOLGAS_MOST_GAINS, or a gain over VERMOLGAS_GAIN_HIGHEST; 12 if start
 * and all runs together are over VERMOLGAS_MOST_GAINS, for any start; 1 for a batch of fewer than
 * VERMOLGAS_SPLIT_BATCH_BYTES, however few of them are needed.
 *
 * The batch is the packets back to back: header 14h, opcode 2Bh, length, flag 1, colour, count of words, start, words.
 * Each has VERMOLGAS_SPLIT_PACKET_PAIRS pairs, in VERMOLGAS_SPLIT_PACKET_BYTES, but for the last, which has the rest;
 * so packet k begins at byte k x VERMOLGAS_SPLIT_PACKET_BYTES. Each starts at the gain where the one before it ended. A
 * controller accepts each of them, and then holds the gains that the pairs stand for. The answer has the packets and
 * their bytes, both 0 on a refusal. The batch is unchanged behind the packets, and all of it on a refusal.
 */
VERMOLGAS_NODISCARD
uint64_t vermolgas_split(uint32_t colour, uint32_t start, const uint8_t *pairs, size_t pairs_length, uint8_t *batch,
                         size_t batch_length);

/* The packets, and the bytes of the batch. */
#define VERMOLGAS_SPLIT_PACKETS(answer) VERMOLGAS_FIELD(size_t, answer, 8, 0xFFFFFFu)
#define VERMOLGAS_SPLIT_BYTES(answer)   VERMOLGAS_FIELD(size_t, answer, 32, 0xFFFFFFFFu)

#ifdef __cplusplus
}
#endif

#endif
