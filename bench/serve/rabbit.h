/* Frames of AMQP 0-9-1, as far as a connection needs them that publishes to a quorum queue of rabbitmq with confirms. */
#ifndef RABBIT_H
#define RABBIT_H

#include "wire.h"

enum {
    METHOD_FRAME = 1, HEADER_FRAME = 2, BODY_FRAME = 3, FRAME_HEAD = 7, FRAME_END = 0xCE, MOST_FRAME = 1 << 17,
    MOST_BODY = MOST_FRAME - FRAME_HEAD - 1, CHANNEL = 1
};

/* A method's class, and its number in it. */
enum {
    START = 10 << 16 | 10, START_OK = 10 << 16 | 11, TUNE = 10 << 16 | 30, TUNE_OK = 10 << 16 | 31, OPEN = 10 << 16 | 40, OPEN_OK = 10 << 16 | 41,
    CONNECTION_CLOSE = 10 << 16 | 50, CHANNEL_OPEN = 20 << 16 | 10, CHANNEL_OPEN_OK = 20 << 16 | 11, CHANNEL_CLOSE = 20 << 16 | 40,
    QUEUE_DECLARE = 50 << 16 | 10, QUEUE_DECLARE_OK = 50 << 16 | 11, CONFIRM_SELECT = 85 << 16 | 10, CONFIRM_SELECT_OK = 85 << 16 | 11,
    PUBLISH = 60 << 16 | 40, CONFIRM = 60 << 16 | 80, REFUSAL = 60 << 16 | 120
};

/* Constant bytes, and how many they are. */
#define BYTES(literal) (literal), sizeof(literal) - 1

#define GREETING BYTES("AMQP\0\0\11\1")
#define AS_GUEST BYTES("\0\0\0\0\5PLAIN\0\0\0\14\0guest\0guest\5en_US")
#define ONE_CHANNEL BYTES("\0\1\0\2\0\0\0\0") /* frames of up to MOST_FRAME, and no heartbeat */
#define ROOT BYTES("\1/\0\0")
#define DURABLE_QUORUM BYTES("\2\0\0\0\30\14x-queue-typeS\0\0\0\6quorum")
#define NOTHING BYTES("\0")

static inline void put_frame(struct buffer *out, unsigned kind, unsigned channel, const void *content, size_t size) {
    unsigned char head[] = {kind, channel >> 8, channel};
    put(out, head, sizeof head);
    put_size(out, size);
    put(out, content, size);
    put(out, BYTES("\xCE"));
}

static inline void put_method(struct buffer *out, unsigned channel, unsigned method, const void *arguments, size_t size) {
    static _Thread_local struct buffer content;
    content.start = content.end = 0;
    put_size(&content, method);
    put(&content, arguments, size);
    put_frame(out, METHOD_FRAME, channel, content.bytes, content.end);
}

static inline void put_name(struct buffer *out, const char *name) {
    unsigned char size = strlen(name);
    put(out, &size, 1);
    put(out, name, size);
}

static inline void put_declare(struct buffer *out, const char *queue) {
    static _Thread_local struct buffer arguments;
    arguments.start = arguments.end = 0;
    put(&arguments, BYTES("\0\0"));
    put_name(&arguments, queue);
    put(&arguments, DURABLE_QUORUM);
    put_method(out, CHANNEL, QUEUE_DECLARE, arguments.bytes, arguments.end);
}

/* A persistent message to a queue, by the exchange that has no name. */
static inline void put_publish(struct buffer *out, const char *queue, const unsigned char *payload, size_t size) {
    static _Thread_local struct buffer content;
    content.start = content.end = 0;
    put(&content, BYTES("\0\0\0"));
    put_name(&content, queue);
    put(&content, NOTHING);
    put_method(out, CHANNEL, PUBLISH, content.bytes, content.end);
    content.start = content.end = 0;
    put(&content, BYTES("\0\74\0\0\0\0\0\0"));
    put_size(&content, size);
    put(&content, BYTES("\x10\0\2")); /* of its properties the delivery mode alone, which is 2: persistent */
    put_frame(out, HEADER_FRAME, CHANNEL, content.bytes, content.end);
    for (size_t piece; size > 0; payload += piece, size -= piece) {
        piece = size < MOST_BODY ? size : MOST_BODY;
        put_frame(out, BODY_FRAME, CHANNEL, payload, piece);
    }
}

/* The size of the whole frame at the front, or 0 where it isn't there yet. */
static inline size_t rabbit_frame_at(const struct buffer *in) {
    const unsigned char *at = in->bytes + in->start;
    size_t size = in_use(in) < FRAME_HEAD ? 0 : FRAME_HEAD + size_at(at + 3) + 1;
    return in_use(in) < size ? 0 : size;
}

/* The method in a frame of this size, or null where there is none. */
static inline const unsigned char *method_in(const unsigned char *frame, size_t size) {
    return frame[0] == METHOD_FRAME && size >= FRAME_HEAD + 4 + 1 && frame[size - 1] == FRAME_END ? frame + FRAME_HEAD : NULL;
}

#endif
