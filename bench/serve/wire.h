/* Bytes that a load writes and reads: buffers, and frames of the Pulsar binary protocol (docs/PROTOCOL.md). */
#ifndef WIRE_H
#define WIRE_H

#include <stdint.h>
#include <stdio.h>
#include <stdlib.h>
#include <string.h>

enum {
    CONNECT = 2, CONNECTED = 3, SUBSCRIBE = 4, PRODUCER = 5, SEND = 6, SEND_RECEIPT = 7, SEND_ERROR = 8, MESSAGE = 9, ACK = 10, FLOW = 11,
    SUCCESS = 13, ERROR = 14, PRODUCER_SUCCESS = 17, ACK_RESPONSE = 38
};

/* Bytes from `start` to `end` are in use. */
struct buffer {
    unsigned char *bytes;
    size_t start, end, room;
};

static inline size_t in_use(const struct buffer *it) { return it->end - it->start; }

/* Room for so many bytes behind the end; what is in use moves to the front where that gives it. */
static inline unsigned char *reserve(struct buffer *it, size_t more) {
    if (it->end + more > it->room && it->start > 0) {
        memmove(it->bytes, it->bytes + it->start, in_use(it));
        it->end -= it->start;
        it->start = 0;
    }
    if (it->end + more > it->room) {
        it->room = 2 * (it->end + more);
        it->bytes = realloc(it->bytes, it->room);
        if (!it->bytes) {
            fputs("load: no memory\n", stderr);
            exit(1);
        }
    }
    return it->bytes + it->end;
}

static inline void put(struct buffer *out, const void *bytes, size_t size) {
    memcpy(reserve(out, size), bytes, size);
    out->end += size;
}

static inline void put_size(struct buffer *out, size_t n) {
    unsigned char bytes[4] = {n >> 24, n >> 16, n >> 8, n};
    put(out, bytes, 4);
}

static inline void put_varint(struct buffer *out, uint64_t n) {
    unsigned char *at = reserve(out, 10);
    for (; n >= 128; n >>= 7) *at++ = n | 128;
    *at++ = n;
    out->end = at - out->bytes;
}

static inline void put_number(struct buffer *out, unsigned field, uint64_t n) {
    put_varint(out, field * 8);
    put_varint(out, n);
}

static inline void put_text(struct buffer *out, unsigned field, const void *bytes, size_t size) {
    put_varint(out, field * 8 + 2);
    put_varint(out, size);
    put(out, bytes, size);
}

/* A frame with the command of this type, whose fields are given, up to the entry, of which the size is given. */
static inline void put_command(struct buffer *out, unsigned type, struct buffer *fields, size_t entry) {
    static _Thread_local struct buffer command;
    command.start = command.end = 0;
    put_number(&command, 1, type);
    put_text(&command, type, fields->bytes, fields->end);
    put_size(out, 4 + command.end + entry);
    put_size(out, command.end);
    put(out, command.bytes, command.end);
    fields->start = fields->end = 0;
}

static inline size_t size_at(const unsigned char *at) { return (size_t)at[0] << 24 | at[1] << 16 | at[2] << 8 | at[3]; }

/* Replies have fields with numbers below 8 alone; each is a number or a text. */
enum { FIELDS = 8 };

struct reply {
    unsigned type;
    unsigned has; /* a bit for each field */
    uint64_t number[FIELDS];
    struct {
        const unsigned char *bytes;
        size_t size;
    } text[FIELDS];
    const unsigned char *entry;
    size_t entry_size;
};

/* The varint before `end`; moves behind it. A cut one is told by a null `*at`. */
static inline uint64_t take_varint(const unsigned char **at, const unsigned char *end) {
    uint64_t n = 0;
    for (unsigned shift = 0; *at && *at < end && shift < 64; shift += 7) {
        unsigned char group = *(*at)++;
        n |= (uint64_t)(group & 127) << shift;
        if (group < 128) return n;
    }
    *at = NULL;
    return 0;
}

/* Reads a message of numbers and texts into the fields of a reply; answers whether it can be read. */
static inline int take_fields(struct reply *it, const unsigned char *at, const unsigned char *end) {
    it->has = 0;
    while (at < end) {
        uint64_t tag = take_varint(&at, end), value = take_varint(&at, end), field = tag / 8;
        if (!at || (tag % 8 != 0 && tag % 8 != 2)) return 0;
        if (tag % 8 == 2 && value > (uint64_t)(end - at)) return 0;
        if (field < FIELDS) {
            it->has |= 1u << field;
            it->number[field] = value;
            it->text[field].bytes = at;
            it->text[field].size = tag % 8 == 2 ? value : 0;
        }
        if (tag % 8 == 2) at += value;
    }
    return 1;
}

/* Reads a frame behind its totalSize; answers whether it can be read. */
static inline int take_reply(struct reply *it, const unsigned char *frame, size_t size) {
    if (size < 4 || size_at(frame) > size - 4) return 0;
    const unsigned char *at = frame + 4, *end = at + size_at(frame);
    it->entry = end;
    it->entry_size = frame + size - end;
    if (take_varint(&at, end) != 8) return 0; /* field 1, a number: the type */
    it->type = take_varint(&at, end);
    uint64_t tag = take_varint(&at, end), length = take_varint(&at, end);
    if (!at || tag != it->type * 8 + 2 || length != (uint64_t)(end - at)) return 0;
    return take_fields(it, at, end);
}

/* The payload of an entry, or null where it has none of this size. */
static inline const unsigned char *payload_of(const struct reply *it, size_t least) {
    if (it->entry_size < 4 || size_at(it->entry) > it->entry_size - 4) return NULL;
    return it->entry_size - 4 - size_at(it->entry) < least ? NULL : it->entry + 4 + size_at(it->entry);
}

#endif
