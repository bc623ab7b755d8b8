/* Vermolgas with a device in one argument: a thin layer over vermolgas.h, for C (C99 on) and C++ (C++11 on).
 *
 * What is lent together is one struct, so nothing can be swapped or lent with a wrong length, and what is answered
 * together is another, whose fields have names. A function that answers a status alone answers 0 if it was accepted,
 * else the number of the refusal.
 *
 * Every function takes any argument. NULL where something is lent is refusal 1, as a wrong length is, and a number that
 * does not fit its field is refusal 10; else the entries decide. The number is the first that applies, and then nothing
 * is written but for the reply of vermolgas_device_send. What the caller sees to is what vermolgas.h says: a pointer is
 * to as many bytes as the length behind it says, and what is written overlaps nothing else that is lent.
 *
 * A packet that is refused with 10 has a value out of range, and the structs say in fault_place where: by the offset of
 * the field in the packet's data, as VERMOLGAS_FAULT_PLACE has it. With any other status fault_place is 0. A reply over
 * a line may have status 10 and no place: that is VERMOLGAS_NO_PLACE. vermolgas_refusal_line puts it into words. What
 * answers a status alone, as planning does, has no place.
 *
 * Names that end in an underscore are the layer's own.
 */
#ifndef VERMOLGAS_DEVICE_H
#define VERMOLGAS_DEVICE_H

#include "vermolgas.h"

#include <string.h>
#ifndef __cplusplus
#include <stdbool.h>
#endif

#define VERMOLGAS_INLINE_ VERMOLGAS_NODISCARD static inline

/* One line of words for a status, for any number. */
VERMOLGAS_INLINE_ const char *vermolgas_refusal_text(unsigned number)
{
    switch (number) {
    case VERMOLGAS_ACCEPTED: return "accepted";
    case VERMOLGAS_REFUSED_LENT: return "a lent length is wrong, or a stored setting is out of range";
    case VERMOLGAS_REFUSED_TOO_SHORT: return "too short for its fields";
    case VERMOLGAS_REFUSED_TOO_LONG: return "longer than 512 bytes";
    case VERMOLGAS_REFUSED_LENGTH: return "the length field differs from the data";
    case VERMOLGAS_REFUSED_CHECKSUM: return "the checksum differs";
    case VERMOLGAS_REFUSED_DESTINATION: return "the destination isn't 4";
    case VERMOLGAS_REFUSED_OPCODE: return "no such command";
    case VERMOLGAS_REFUSED_LENGTH_MISSING: return "this write needs a length field";
    case VERMOLGAS_REFUSED_SIZE: return "the data has the wrong size";
    case VERMOLGAS_REFUSED_RANGE: return "a value is out of range";
    case VERMOLGAS_REFUSED_NOT_CARRIED: return "not carried";
    case VERMOLGAS_REFUSED_PAST_TABLE: return "start and count, or runs, go past the table";
    default: return "no such refusal";
    }
}

/* A fault_place beside status 10 that is not known: no packet has one as large. */
#define VERMOLGAS_NO_PLACE VERMOLGAS_CAST(size_t, -1)

/* Room for every line of the next function, its closing 0 included. */
#define VERMOLGAS_LINE_BYTES 64

/* A text behind the first length bytes of a line that has room for so many; what does not fit is left out, the closing
 * 0 never. Answers the length as if all fitted. */
VERMOLGAS_INLINE_ size_t vermolgas_append_(char *line, size_t room, size_t length, const char *text)
{
    for (; *text != '\0'; text++, length++)
        if (length + 1 < room)
            line[length] = *text;
    if (room > 0)
        line[length < room ? length : room - 1] = '\0';
    return length;
}

/* Writes the words for a packet's status into a line, with the place on refusal 10: "a value is out of range, at data
 * byte 5". number and fault_place are those of a struct below, or of an answer. With any number but 10, and with 10 and
 * VERMOLGAS_NO_PLACE, the words are those of vermolgas_refusal_text; that is for planning and packing, too, whose
 * refusals by 10 have no place.
 *
 * As with snprintf, at most room bytes are written, the last of them a 0; with room 0, or if line is NULL, none. The
 * answer is the length of the whole line without the 0: if that is room or more, the line was cut off. */
VERMOLGAS_INLINE_ size_t vermolgas_refusal_line(char *line, size_t room, unsigned number, size_t fault_place)
{
    char digits[3 * sizeof fault_place + 1], *digit = digits + sizeof digits - 1;
    size_t length;

    if (line == NULL)
        room = 0;
    length = vermolgas_append_(line, room, 0, vermolgas_refusal_text(number));
    if (number != VERMOLGAS_REFUSED_RANGE || fault_place == VERMOLGAS_NO_PLACE)
        return length;
    *digit = '\0';
    do {
        *--digit = VERMOLGAS_CAST(char, '0' + fault_place % 10);
        fault_place /= 10;
    } while (fault_place > 0);
    length = vermolgas_append_(line, room, length, ", at data byte ");
    return vermolgas_append_(line, room, length, digit);
}

/* A device: all that is kept for one controller. vermolgas_device_reset has to come first. */
struct vermolgas_device {
    uint8_t block[VERMOLGAS_BLOCK_BYTES];
    uint8_t staged[VERMOLGAS_MAP_BYTES];
    uint8_t live[VERMOLGAS_MAP_BYTES];
    uint8_t gains[VERMOLGAS_GAINS_BYTES];
};

/* Room for every reply. */
struct vermolgas_reply {
    uint8_t bytes[VERMOLGAS_REPLY_BYTES];
};

/* What came of a packet that was sent to a device. */
struct vermolgas_result {
    unsigned status;       /* 0, or the refusal of the packet */
    size_t reply_length;   /* of the whole reply, 0 if there is none */
    const uint8_t *data;   /* what an accepted read returned, in the reply; NULL if there is nothing */
    size_t data_length;
    size_t fault_place;    /* on refusal 10 the place of the value in the packet's data; else 0 */
};

/* What stands in the bytes of a reply that came over a line. */
struct vermolgas_reply_result {
    unsigned line_status;   /* 0, or why these bytes are no reply: 1 to 5, 10 */
    unsigned device_status; /* the reply's own: 0, or the refusal of the packet; that of the line, if it is no reply */
    const uint8_t *data;    /* as above: of an accepted read alone */
    size_t data_length;
    size_t fault_place;     /* if device_status is 10, what the reply says, else 0; see vermolgas_reply_read */
};

/* A number of two bytes, low byte first. */
VERMOLGAS_INLINE_ size_t vermolgas_word_(const uint8_t *bytes)
{
    return VERMOLGAS_CAST(size_t, bytes[0] | bytes[1] << 8);
}

/* The place that the answer of vermolgas_packet, vermolgas_read or vermolgas_make has on refusal 10; else 0. */
VERMOLGAS_INLINE_ size_t vermolgas_place_in_(uint64_t answer)
{
    return VERMOLGAS_STATUS(answer) == VERMOLGAS_REFUSED_RANGE ? VERMOLGAS_FAULT_PLACE(answer) : 0;
}

/* Puts the device into its state after reset. Status 0; 1 for NULL. */
VERMOLGAS_INLINE_ unsigned vermolgas_device_reset(struct vermolgas_device *device)
{
    if (device == NULL)
        return VERMOLGAS_REFUSED_LENT;
    return VERMOLGAS_STATUS(vermolgas_reset(device->block, sizeof device->block, device->staged, sizeof device->staged,
                                            device->live, sizeof device->live, device->gains, sizeof device->gains));
}

/* Reads a reply of so many bytes. checksum is what its packet asked for. device_status is 0 only if the packet was
 * accepted, so one test of it is enough; line_status tells whether to ask again.
 *
 * A reply with status 10 has the place of the fault as its two data bytes: that is fault_place. If it has any other
 * number of them, as none from a controller before version 0.5, fault_place is VERMOLGAS_NO_PLACE; so it is, too, if
 * the bytes are no reply and that is what the 10 says. */
VERMOLGAS_INLINE_ struct vermolgas_reply_result vermolgas_reply_read(const struct vermolgas_reply *reply,
                                                                     size_t length, bool checksum)
{
    struct vermolgas_reply_result result = {VERMOLGAS_REFUSED_LENT, VERMOLGAS_REFUSED_LENT, NULL, 0, 0};
    const uint8_t *data;
    size_t data_length;
    uint64_t read;

    if (reply == NULL)
        return result;
    read = length > sizeof reply->bytes ? VERMOLGAS_CAST(uint64_t, VERMOLGAS_REFUSED_TOO_LONG)
                                        : vermolgas_read_reply(reply->bytes, length, checksum ? 1 : 0);
    result.line_status = result.device_status = VERMOLGAS_STATUS(read);
    if (result.line_status != VERMOLGAS_ACCEPTED) {
        result.fault_place = result.line_status == VERMOLGAS_REFUSED_RANGE ? VERMOLGAS_NO_PLACE : 0;
        return result;
    }
    data = reply->bytes + VERMOLGAS_REPLY_OFFSET;
    data_length = VERMOLGAS_REPLY_LENGTH(read);
    result.device_status = VERMOLGAS_REPLY_STATUS(read);
    if (result.device_status == VERMOLGAS_REFUSED_RANGE) {
        result.fault_place = data_length == 2 ? vermolgas_word_(data) : VERMOLGAS_NO_PLACE;
    } else if (result.device_status == VERMOLGAS_ACCEPTED && data_length > 0) {
        result.data = data;
        result.data_length = data_length;
    }
    return result;
}

/* Hands the device one packet of so many bytes, and takes its reply apart. */
VERMOLGAS_INLINE_ struct vermolgas_result vermolgas_device_send(struct vermolgas_device *device, const uint8_t *packet,
                                                                size_t length, struct vermolgas_reply *reply)
{
    struct vermolgas_result result = {VERMOLGAS_REFUSED_LENT, 0, NULL, 0, 0};
    uint64_t answer;

    if (device == NULL || reply == NULL || (packet == NULL && length > 0))
        return result;
    answer = vermolgas_packet(packet, length, device->block, sizeof device->block, device->staged,
                              sizeof device->staged, device->live, sizeof device->live, device->gains,
                              sizeof device->gains, reply->bytes, sizeof reply->bytes);
    result.status = VERMOLGAS_STATUS(answer);
    result.reply_length = VERMOLGAS_PACKET_REPLY_LENGTH(answer);
    result.fault_place = vermolgas_place_in_(answer);
    if (result.reply_length > 0) { /* and so the packet has a first byte */
        struct vermolgas_reply_result read =
            vermolgas_reply_read(reply, result.reply_length, (packet[0] & VERMOLGAS_OPTION_CHECKSUM) != 0);
        result.data = read.data;
        result.data_length = read.data_length;
    }
    return result;
}

/* The rows that moved: those of the staged shape with a point that is another one in the live map. */
struct vermolgas_rows_result {
    unsigned status; /* 0; 1 if there is no device */
    unsigned marked; /* how many there are */
    unsigned lowest; /* the first of them, counted from 0; VERMOLGAS_NO_ROW if there is none */
    uint32_t mark;   /* a bit for each row, bit 0 for row 0; see vermolgas_row_marked */
};

/* The rows whose points an apply would change, as vermolgas_rows tells them: they are right if the device was reset and
 * changed by nothing but packets since. Status 0; 1 for NULL, and then there is no row. */
VERMOLGAS_INLINE_ struct vermolgas_rows_result vermolgas_device_rows(const struct vermolgas_device *device)
{
    struct vermolgas_rows_result result = {VERMOLGAS_REFUSED_LENT, 0, VERMOLGAS_NO_ROW, 0};
    uint64_t answer;
    size_t i;

    if (device == NULL)
        return result;
    answer = vermolgas_rows(device->block, sizeof device->block);
    result.status = VERMOLGAS_STATUS(answer);
    result.marked = VERMOLGAS_ROWS_MARKED(answer);
    result.lowest = VERMOLGAS_ROWS_LOWEST(answer);
    for (i = 0; i < VERMOLGAS_MARK_BYTES; i++)
        result.mark |= VERMOLGAS_CAST(uint32_t, device->block[VERMOLGAS_MARK_OFFSET + i]) << (8 * i);
    return result;
}

/* Whether this row is among them, for any number. */
VERMOLGAS_INLINE_ bool vermolgas_row_marked(struct vermolgas_rows_result rows, size_t row)
{
    return row < VERMOLGAS_MOST_ROWS && (rows.mark >> row & 1) != 0;
}

/* A packet to be sent. One that was not made has no bytes, and is refused with 2 if it is sent all the same. */
struct vermolgas_command {
    unsigned status; /* 0, or why it was not made */
    size_t length;
    uint8_t bytes[VERMOLGAS_LONGEST];
    size_t fault_place; /* on refusal 10 the place of the value in the data that it was to carry; else 0 */
};

/* Options of a line that loses bytes: checksums both ways, and a reply. */
#define VERMOLGAS_OPTIONS_CHECKED (VERMOLGAS_OPTION_CHECKSUM | VERMOLGAS_OPTION_REPLY)

/* A point, in eighths of a pixel. */
struct vermolgas_point {
    uint16_t x, y;
};

/* The most points and gains that one write, and that one read, can carry. */
#define VERMOLGAS_WRITE_POINTS 126
#define VERMOLGAS_WRITE_GAINS  251
#define VERMOLGAS_READ_POINTS  127
#define VERMOLGAS_READ_GAINS   254

/* Data under writing: what is filled, and the first refusal that applies, which is the lowest; of several by 10 that of
 * the first field. */
struct vermolgas_data_ {
    unsigned status;
    size_t fault_place;
    size_t length;
    uint8_t bytes[VERMOLGAS_LONGEST];
};

VERMOLGAS_INLINE_ struct vermolgas_data_ vermolgas_no_data_(void)
{
    struct vermolgas_data_ data;
    memset(&data, 0, sizeof data);
    return data;
}

/* The place counts with status 10, and is 0 with any other. */
static inline void vermolgas_refuse_(struct vermolgas_data_ *data, unsigned status, size_t fault_place)
{
    if (data->status != VERMOLGAS_ACCEPTED &&
        (data->status < status || (data->status == status && data->fault_place <= fault_place)))
        return;
    data->status = status;
    data->fault_place = fault_place;
}

/* For a list, of which so many items fit a packet. */
VERMOLGAS_INLINE_ struct vermolgas_data_ vermolgas_data_for_(const void *list, size_t count, size_t most)
{
    struct vermolgas_data_ data = vermolgas_no_data_();
    if (list == NULL && count > 0)
        vermolgas_refuse_(&data, VERMOLGAS_REFUSED_LENT, 0);
    if (count > most)
        vermolgas_refuse_(&data, VERMOLGAS_REFUSED_TOO_LONG, 0);
    return data;
}

/* A number of one or two bytes behind what is filled, for which there is room. One that has more bytes is refused: cut
 * off it would be another one. */
static inline void vermolgas_put_(struct vermolgas_data_ *data, size_t number, size_t bytes)
{
    size_t i;

    if (number >> (8 * bytes) != 0)
        vermolgas_refuse_(data, VERMOLGAS_REFUSED_RANGE, data->length);
    for (i = 0; i < bytes; i++)
        data->bytes[data->length++] = VERMOLGAS_CAST(uint8_t, number >> (8 * i) & 0xFFu);
}

/* A start of a table, of two bytes. One that has more lies past every table. */
static inline void vermolgas_put_start_(struct vermolgas_data_ *data, size_t start)
{
    if (start > 0xFFFF)
        vermolgas_refuse_(data, VERMOLGAS_REFUSED_PAST_TABLE, 0);
    vermolgas_put_(data, start & 0xFFFF, 2);
}

VERMOLGAS_INLINE_ struct vermolgas_command vermolgas_refused_(unsigned status, size_t fault_place)
{
    struct vermolgas_command command;
    memset(&command, 0, sizeof command);
    command.status = status;
    command.fault_place = fault_place;
    return command;
}

/* Makes a packet: any command, any options, so many bytes of data. */
VERMOLGAS_INLINE_ struct vermolgas_command vermolgas_make_command(enum vermolgas_opcode opcode, uint8_t options,
                                                                  const uint8_t *data, size_t length)
{
    struct vermolgas_command command = vermolgas_refused_(VERMOLGAS_REFUSED_LENT, 0);
    unsigned number = opcode;
    uint64_t made;

    if (data == NULL && length > 0)
        return command;
    if (number > 0xFFFF)
        number = 0xFFFF; /* as little an opcode as before */
    made = vermolgas_make(VERMOLGAS_CAST(uint16_t, number), options, data, length, command.bytes, sizeof command.bytes);
    command.status = VERMOLGAS_STATUS(made);
    command.length = VERMOLGAS_MAKE_LENGTH(made);
    command.fault_place = vermolgas_place_in_(made);
    return command;
}

/* A packet of data that was written, unless this or the entry refuses it. */
VERMOLGAS_INLINE_ struct vermolgas_command vermolgas_make_from_(enum vermolgas_opcode opcode, unsigned options,
                                                                struct vermolgas_data_ *data)
{
    struct vermolgas_command command =
        vermolgas_make_command(opcode, VERMOLGAS_CAST(uint8_t, options), data->bytes, data->length);

    if (data->status == VERMOLGAS_ACCEPTED)
        return command;
    if (command.status != VERMOLGAS_ACCEPTED)
        vermolgas_refuse_(data, command.status, command.fault_place);
    return vermolgas_refused_(data->status, data->fault_place);
}

/* A command whose data is one number. */
VERMOLGAS_INLINE_ struct vermolgas_command vermolgas_make_number_(enum vermolgas_opcode opcode, uint8_t options,
                                                                  unsigned number, size_t bytes)
{
    struct vermolgas_data_ data = vermolgas_no_data_();
    vermolgas_put_(&data, number, bytes);
    return vermolgas_make_from_(opcode, options, &data);
}

/* Makers of single writes. The options are VERMOLGAS_OPTIONS_CHECKED, or 0 for the fewest bytes and no reply; a length
 * field is added where the command needs one. */

VERMOLGAS_INLINE_ struct vermolgas_command vermolgas_make_display(enum vermolgas_display display, uint8_t options)
{
    return vermolgas_make_number_(VERMOLGAS_OP_DISPLAY, options, display, 1);
}

VERMOLGAS_INLINE_ struct vermolgas_command vermolgas_make_low_latency(bool on, uint8_t options)
{
    return vermolgas_make_number_(VERMOLGAS_OP_LOW_LATENCY, options, on ? 1 : 0, 1);
}

VERMOLGAS_INLINE_ struct vermolgas_command vermolgas_make_look(unsigned look, uint8_t options)
{
    return vermolgas_make_number_(VERMOLGAS_OP_LOOK, options, look, 2);
}

VERMOLGAS_INLINE_ struct vermolgas_command vermolgas_make_curtain(enum vermolgas_curtain colour, uint8_t options)
{
    return vermolgas_make_number_(VERMOLGAS_OP_CURTAIN, options, colour, 1);
}

VERMOLGAS_INLINE_ struct vermolgas_command vermolgas_make_flip(enum vermolgas_flip flip, uint8_t options)
{
    return vermolgas_make_number_(VERMOLGAS_OP_FLIP, options, flip, 1);
}

VERMOLGAS_INLINE_ struct vermolgas_command vermolgas_make_freeze(bool on, uint8_t options)
{
    return vermolgas_make_number_(VERMOLGAS_OP_FREEZE, options, on ? 1 : 0, 1);
}

/* Makes the staged map live; or, with false, turns warping off and leaves the live map as it is. */
VERMOLGAS_INLINE_ struct vermolgas_command vermolgas_make_apply(bool on, uint8_t options)
{
    return vermolgas_make_number_(VERMOLGAS_OP_APPLY_WARPING, options, on ? 1 : 0, 1);
}

/* Control points evenly, in so many columns and rows. */
VERMOLGAS_INLINE_ struct vermolgas_command vermolgas_make_shape(unsigned columns, unsigned rows, uint8_t options)
{
    struct vermolgas_data_ data = vermolgas_no_data_();
    vermolgas_put_(&data, VERMOLGAS_CONTROL_POINTS_EVEN, 1);
    vermolgas_put_(&data, columns, 2);
    vermolgas_put_(&data, rows, 2);
    return vermolgas_make_from_(VERMOLGAS_OP_CONTROL_POINTS, options | VERMOLGAS_OPTION_LENGTH, &data);
}

/* Staged points from start on. Refusal 9 for none, 3 for more than VERMOLGAS_WRITE_POINTS; 12 for a start that no
 * packet can carry. */
VERMOLGAS_INLINE_ struct vermolgas_command vermolgas_make_points(size_t start, const struct vermolgas_point *points,
                                                                 size_t count, uint8_t options)
{
    struct vermolgas_data_ data = vermolgas_data_for_(points, count, VERMOLGAS_WRITE_POINTS);
    size_t i;

    if (data.status != VERMOLGAS_ACCEPTED)
        return vermolgas_refused_(data.status, 0);
    vermolgas_put_start_(&data, start);
    for (i = 0; i < count; i++) {
        vermolgas_put_(&data, points[i].x, 2);
        vermolgas_put_(&data, points[i].y, 2);
    }
    return vermolgas_make_from_(VERMOLGAS_OP_WARP_TABLE, options | VERMOLGAS_OPTION_LENGTH, &data);
}

/* Gains from start on, VERMOLGAS_GAIN_ONE for 1.0. Refusal 10 for none, 3 for more than a packet with these options
 * holds: VERMOLGAS_WRITE_GAINS, or one fewer with a checksum or a two-byte opcode; 12 as above. */
VERMOLGAS_INLINE_ struct vermolgas_command vermolgas_make_gains(enum vermolgas_gain_colour colour, size_t start,
                                                                const uint16_t *gains, size_t count, uint8_t options)
{
    struct vermolgas_data_ data = vermolgas_data_for_(gains, count, VERMOLGAS_WRITE_GAINS);
    size_t i;

    if (data.status != VERMOLGAS_ACCEPTED)
        return vermolgas_refused_(data.status, 0);
    vermolgas_put_(&data, 0, 1); /* not compressed */
    vermolgas_put_(&data, colour, 1);
    vermolgas_put_(&data, count, 2);
    vermolgas_put_start_(&data, start);
    for (i = 0; i < count; i++)
        vermolgas_put_(&data, gains[i], 2);
    return vermolgas_make_from_(VERMOLGAS_OP_GAINS, options | VERMOLGAS_OPTION_LENGTH, &data);
}

/* Reads, which are always replied to. This one is for commands whose read sends nothing; refusal 9 for the others. */
VERMOLGAS_INLINE_ struct vermolgas_command vermolgas_make_read(enum vermolgas_opcode opcode, uint8_t options)
{
    return vermolgas_make_command(opcode, VERMOLGAS_CAST(uint8_t, options | VERMOLGAS_OPTION_READ), NULL, 0);
}

/* Staged points, 1 to VERMOLGAS_READ_POINTS; else refusal 10. */
VERMOLGAS_INLINE_ struct vermolgas_command vermolgas_make_read_points(size_t start, size_t count, uint8_t options)
{
    struct vermolgas_data_ data = vermolgas_no_data_();
    vermolgas_put_start_(&data, start);
    vermolgas_put_(&data, count, 2);
    return vermolgas_make_from_(VERMOLGAS_OP_WARP_TABLE, options | VERMOLGAS_OPTION_READ, &data);
}

/* Gains of one colour, 1 to VERMOLGAS_READ_GAINS; else refusal 10. */
VERMOLGAS_INLINE_ struct vermolgas_command vermolgas_make_read_gains(enum vermolgas_gain_colour colour, size_t start,
                                                                     size_t count, uint8_t options)
{
    struct vermolgas_data_ data = vermolgas_no_data_();
    vermolgas_put_(&data, colour, 1);
    vermolgas_put_start_(&data, start);
    vermolgas_put_(&data, count, 2);
    return vermolgas_make_from_(VERMOLGAS_OP_GAINS, options | VERMOLGAS_OPTION_READ, &data);
}

/* The same command once more, with checksum and reply requested: for a line that loses bytes. Refused is what is no
 * packet, as vermolgas_read does, and with 3 a packet that has VERMOLGAS_LONGEST bytes without a checksum. */
VERMOLGAS_INLINE_ struct vermolgas_command vermolgas_make_checked(const uint8_t *packet, size_t length)
{
    uint64_t read;

    if (packet == NULL && length > 0)
        return vermolgas_refused_(VERMOLGAS_REFUSED_LENT, 0);
    read = vermolgas_read(packet, length);
    if (VERMOLGAS_STATUS(read) != VERMOLGAS_ACCEPTED)
        return vermolgas_refused_(VERMOLGAS_STATUS(read), vermolgas_place_in_(read));
    return vermolgas_make_command(VERMOLGAS_CAST(enum vermolgas_opcode, VERMOLGAS_READ_OPCODE(read)),
                                  VERMOLGAS_CAST(uint8_t, VERMOLGAS_READ_OPTIONS(read) | VERMOLGAS_OPTIONS_CHECKED),
                                  packet + VERMOLGAS_READ_OFFSET(read), VERMOLGAS_READ_LENGTH(read));
}

/* The upload of a map: what the device holds, what it is to hold, and what planning writes. Planning works in room and
 * choices (vermolgas.h says what they hold then); nothing else here needs them. points, packets and bytes are those of
 * the plan, and all 0 while there is none: in a zeroed upload, after vermolgas_upload_start, and after a point was set.
 * A plan for equal maps has points, but no packet. */
struct vermolgas_upload {
    uint8_t held[VERMOLGAS_MAP_BYTES];
    uint8_t wanted[VERMOLGAS_MAP_BYTES];
    uint8_t plan[VERMOLGAS_PLAN_LIST_BYTES];
    uint8_t room[VERMOLGAS_ROOM_BYTES];
    uint8_t choices[VERMOLGAS_CHOICES_BYTES];
    uint8_t batch[VERMOLGAS_BATCH_BYTES];
    uint32_t points;
    size_t packets;
    size_t bytes;
};

static inline void vermolgas_unplan_(struct vermolgas_upload *upload)
{
    upload->points = 0;
    upload->packets = upload->bytes = 0;
}

/* Begins an upload: held and wanted are the device's staged map, and nothing is planned. */
VERMOLGAS_INLINE_ unsigned vermolgas_upload_start(struct vermolgas_upload *upload,
                                                  const struct vermolgas_device *device)
{
    if (upload == NULL || device == NULL)
        return VERMOLGAS_REFUSED_LENT;
    memcpy(upload->held, device->staged, sizeof upload->held);
    memcpy(upload->wanted, device->staged, sizeof upload->wanted);
    vermolgas_unplan_(upload);
    return VERMOLGAS_ACCEPTED;
}

/* Sets a point of one of the upload's maps. */
VERMOLGAS_INLINE_ unsigned vermolgas_set_point_(struct vermolgas_upload *upload, uint8_t *map, size_t index,
                                                struct vermolgas_point point)
{
    uint8_t *place;

    if (index >= VERMOLGAS_MOST_POINTS)
        return VERMOLGAS_REFUSED_PAST_TABLE;
    place = map + VERMOLGAS_POINT_BYTES * index;
    place[0] = VERMOLGAS_CAST(uint8_t, point.x & 0xFF);
    place[1] = VERMOLGAS_CAST(uint8_t, point.x >> 8);
    place[2] = VERMOLGAS_CAST(uint8_t, point.y & 0xFF);
    place[3] = VERMOLGAS_CAST(uint8_t, point.y >> 8);
    vermolgas_unplan_(upload);
    return VERMOLGAS_ACCEPTED;
}

/* Sets a point of the map held, and of the map wanted. The upload then has no plan, even if the point was the same
 * before, and a walk under way ends with status 1. Refusal 12 for an index past the map. */
VERMOLGAS_INLINE_ unsigned vermolgas_upload_hold(struct vermolgas_upload *upload, size_t index,
                                                 struct vermolgas_point point)
{
    return upload == NULL ? VERMOLGAS_REFUSED_LENT : vermolgas_set_point_(upload, upload->held, index, point);
}

VERMOLGAS_INLINE_ unsigned vermolgas_upload_want(struct vermolgas_upload *upload, size_t index,
                                                 struct vermolgas_point point)
{
    return upload == NULL ? VERMOLGAS_REFUSED_LENT : vermolgas_set_point_(upload, upload->wanted, index, point);
}

/* Plans the upload of the first points of the map, 1 to VERMOLGAS_MOST_POINTS, else refusal 10. On a refusal all
 * stays, the last plan too. */
VERMOLGAS_INLINE_ unsigned vermolgas_upload_plan(struct vermolgas_upload *upload, uint32_t points)
{
    size_t length = points <= VERMOLGAS_MOST_POINTS ? VERMOLGAS_POINT_BYTES * VERMOLGAS_CAST(size_t, points) : 0;
    uint64_t answer;

    if (upload == NULL)
        return VERMOLGAS_REFUSED_LENT;
    answer = vermolgas_plan(points, upload->held, length, upload->wanted, length, upload->plan, sizeof upload->plan,
                            upload->room, sizeof upload->room, upload->choices, sizeof upload->choices,
                            upload->batch, sizeof upload->batch);
    if (VERMOLGAS_STATUS(answer) == VERMOLGAS_ACCEPTED) {
        upload->points = points;
        upload->packets = VERMOLGAS_PLAN_PACKETS(answer);
        upload->bytes = VERMOLGAS_PLAN_BYTES(answer);
    }
    return VERMOLGAS_STATUS(answer);
}

/* A walk over the packets of a planned upload:
 *
 *     struct vermolgas_walk walk = vermolgas_upload_walk(&upload);
 *     while (vermolgas_walk_next(&walk))
 *         send(walk.packet, walk.length);
 *     if (walk.status != VERMOLGAS_ACCEPTED)
 *         .. the upload was not planned, or did not stay as it was
 *
 * It never leaves the batch. At its end the status is 0 if the upload was planned, its points, packets and bytes stayed
 * those that the walk began with, each packet's first six bytes were those of its start and count in the plan, and the
 * packets fill all bytes; else it is 1, and a packet that differs was not handed out. No more is looked at: what is
 * changed by hand in the maps or in a packet's points stays unseen, and so does a new plan in mid-walk that has the
 * same points, packets and bytes, if its packets stand where the walk looks for them. */
struct vermolgas_walk {
    const struct vermolgas_upload *upload;
    uint32_t points;       /* of the plan that it began with, as the next two */
    size_t packets;
    size_t bytes;
    size_t next;           /* which packet of the plan comes next, and where it stands in the batch */
    size_t next_offset;
    unsigned status;       /* to be tested when vermolgas_walk_next has answered false */
    const uint8_t *packet; /* the packet at hand; NULL before the first and behind the last */
    size_t length;
    size_t start, count;   /* the points that it carries */
};

/* Begins a walk. Status 1 for NULL and for an upload that is not planned: then there is no packet. */
VERMOLGAS_INLINE_ struct vermolgas_walk vermolgas_upload_walk(const struct vermolgas_upload *upload)
{
    struct vermolgas_walk walk;
    memset(&walk, 0, sizeof walk);
    walk.upload = upload;
    walk.packet = NULL;
    walk.status = VERMOLGAS_REFUSED_LENT;
    if (upload == NULL || upload->points == 0)
        return walk;
    walk.status = VERMOLGAS_ACCEPTED;
    walk.points = upload->points;
    walk.packets = upload->packets;
    walk.bytes = upload->bytes;
    return walk;
}

/* Whether the upload's plan has the numbers of the one that the walk began with, and the walk stands in the batch. */
VERMOLGAS_INLINE_ bool vermolgas_walk_within_(const struct vermolgas_walk *walk)
{
    const struct vermolgas_upload *upload = walk->upload;

    return upload != NULL && upload->points == walk->points && upload->packets == walk->packets &&
           upload->bytes == walk->bytes && walk->packets <= VERMOLGAS_MOST_POINTS &&
           walk->bytes <= sizeof upload->batch && walk->next_offset <= walk->bytes;
}

/* Whether a packet begins as a 34h write of so many points from start on does. */
VERMOLGAS_INLINE_ bool vermolgas_begins_as_(const uint8_t *packet, size_t start, size_t count)
{
    return packet[0] == (4 | VERMOLGAS_OPTION_LENGTH) && packet[1] == VERMOLGAS_OP_WARP_TABLE &&
           vermolgas_word_(packet + 2) == 2 + VERMOLGAS_POINT_BYTES * count && vermolgas_word_(packet + 4) == start;
}

/* Takes the packet that comes next, by its start and count in the plan. Whether it stands so in the batch. */
VERMOLGAS_INLINE_ bool vermolgas_walk_step_(struct vermolgas_walk *walk)
{
    const uint8_t *listed = walk->upload->plan + 4 * walk->next;
    const uint8_t *packet = walk->upload->batch + walk->next_offset;
    size_t start = vermolgas_word_(listed), count = vermolgas_word_(listed + 2);
    size_t length = 6 + VERMOLGAS_POINT_BYTES * count;

    if (count == 0 || count > VERMOLGAS_WRITE_POINTS || length > walk->bytes - walk->next_offset ||
        !vermolgas_begins_as_(packet, start, count))
        return false;
    walk->packet = packet;
    walk->length = length;
    walk->start = start;
    walk->count = count;
    walk->next++;
    walk->next_offset += length;
    return true;
}

/* Goes on to the next packet; false if there is none, or if the walk ends with status 1. */
VERMOLGAS_INLINE_ bool vermolgas_walk_next(struct vermolgas_walk *walk)
{
    if (walk == NULL)
        return false;
    walk->packet = NULL;
    walk->length = walk->start = walk->count = 0;
    if (walk->status != VERMOLGAS_ACCEPTED)
        return false;
    if (vermolgas_walk_within_(walk)) {
        if (walk->next < walk->packets && vermolgas_walk_step_(walk))
            return true;
        if (walk->next == walk->packets && walk->next_offset == walk->bytes)
            return false;
    }
    walk->status = VERMOLGAS_REFUSED_LENT;
    return false;
}

/* Gains on their way to a controller: as bytes, compressed, and as packets. pair_count, packets and bytes are those of
 * what was packed last, and all 0 while there is nothing: in a zeroed blend. */
struct vermolgas_blend {
    uint8_t gains[VERMOLGAS_GAIN_BYTES * VERMOLGAS_MOST_GAINS];
    uint8_t pairs[VERMOLGAS_PAIRS_BYTES];
    uint8_t batch[VERMOLGAS_SPLIT_BATCH_BYTES];
    size_t pair_count;
    size_t packets;
    size_t bytes;
};

/* Why gains can't be packed, or 0. All of it is judged before anything is written. */
VERMOLGAS_INLINE_ unsigned vermolgas_judge_gains_(unsigned colour, size_t start, const uint16_t *gains, size_t count)
{
    size_t i;

    if (count == 0 || count > VERMOLGAS_MOST_GAINS || colour > VERMOLGAS_GAIN_BLUE)
        return VERMOLGAS_REFUSED_RANGE;
    for (i = 0; i < count; i++)
        if (gains[i] > VERMOLGAS_GAIN_HIGHEST)
            return VERMOLGAS_REFUSED_RANGE;
    return start > VERMOLGAS_MOST_GAINS - count ? VERMOLGAS_REFUSED_PAST_TABLE : VERMOLGAS_ACCEPTED;
}

/* Packs gains of a colour, from start on: compresses them into the fewest pairs, and splits these into packets.
 *
 *     if (vermolgas_blend_pack(&blend, VERMOLGAS_GAIN_ALL, 0, gains, VERMOLGAS_MOST_GAINS) != VERMOLGAS_ACCEPTED)
 *         .. nothing was packed
 *     for (k = 0; k < blend.packets; k++) {
 *         struct vermolgas_slice packet = vermolgas_blend_packet(&blend, k);
 *         send(packet.bytes, packet.length);
 *     }
 *
 * Refusal 10 for no gains or more than VERMOLGAS_MOST_GAINS, a colour or a gain out of range; 12 if they run past the
 * colour's gains. On a refusal all stays, what was packed before too. */
VERMOLGAS_INLINE_ unsigned vermolgas_blend_pack(struct vermolgas_blend *blend, enum vermolgas_gain_colour colour,
                                                size_t start, const uint16_t *gains, size_t count)
{
    unsigned status = VERMOLGAS_REFUSED_LENT;
    uint64_t answer;
    size_t i;

    if (blend != NULL && (gains != NULL || count == 0))
        status = vermolgas_judge_gains_(colour, start, gains, count);
    if (status != VERMOLGAS_ACCEPTED)
        return status;
    for (i = 0; i < count; i++) {
        blend->gains[VERMOLGAS_GAIN_BYTES * i] = VERMOLGAS_CAST(uint8_t, gains[i] & 0xFF);
        blend->gains[VERMOLGAS_GAIN_BYTES * i + 1] = VERMOLGAS_CAST(uint8_t, gains[i] >> 8);
    }
    answer = vermolgas_compress(blend->gains, VERMOLGAS_GAIN_BYTES * count, blend->pairs, sizeof blend->pairs);
    blend->pair_count = VERMOLGAS_COMPRESS_PAIRS(answer);
    answer = vermolgas_split(colour, VERMOLGAS_CAST(uint32_t, start), blend->pairs,
                             VERMOLGAS_PAIR_BYTES * blend->pair_count, blend->batch, sizeof blend->batch);
    blend->packets = VERMOLGAS_SPLIT_PACKETS(answer);
    blend->bytes = VERMOLGAS_SPLIT_BYTES(answer);
    return VERMOLGAS_STATUS(answer);
}

/* Bytes where they lie. */
struct vermolgas_slice {
    const uint8_t *bytes;
    size_t length;
};

/* A packet of what was packed, the first by index 0; NULL and 0 where there is none. vermolgas_make_checked makes it
 * once more for a line that loses bytes. It never leaves the batch, whatever the blend's numbers are. */
VERMOLGAS_INLINE_ struct vermolgas_slice vermolgas_blend_packet(const struct vermolgas_blend *blend, size_t index)
{
    struct vermolgas_slice packet = {NULL, 0};
    size_t offset = VERMOLGAS_SPLIT_PACKET_BYTES * index, left;

    if (blend == NULL || index >= blend->packets || index > sizeof blend->batch / VERMOLGAS_SPLIT_PACKET_BYTES ||
        blend->bytes > sizeof blend->batch || blend->bytes <= offset)
        return packet;
    left = blend->bytes - offset;
    packet.bytes = blend->batch + offset;
    packet.length = left < VERMOLGAS_SPLIT_PACKET_BYTES ? left : VERMOLGAS_SPLIT_PACKET_BYTES;
    return packet;
}

#endif
