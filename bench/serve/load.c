/* A load on a served broker: producers that keep so many SENDs under way each, and consumers that acknowledge; in so many threads, each with the
   connections whose numbers fall to it and an epoll of its own.

   Usage: load HOST:PORT [--connections N] [--outstanding N] [--bytes N] [--batch N] [--topics N] [--consumers N] [--type exclusive|failover|shared]
               [--permits N] [--acks N] [--seconds S] [--warmup S] [--messages N] [--threads N] [--redis 1 | --rabbit 1]

   Producer i publishes on topic i modulo the topics, entries of a message of so many bytes, or, with --batch, of so many such messages. Consumer j is of
   topic j modulo the topics: on one subscription, or, where the type is exclusive, on one of its own, from the first entry on; it acknowledges in frames
   of so many message ids, each of which is answered. What is counted comes in the seconds behind the warm-up, once all producers and consumers are there;
   then what is under way is waited for. With --messages all is counted from the start, up to that many messages, in one thread. With --redis 1 each
   message is an XADD to a stream of its topic's number; with --rabbit 1 each is a persistent one to a durable quorum queue of its topic's number, and its
   confirm is its receipt. There are no consumers and no batches with these.

   Prints one line of JSON: counts, the times from a SEND to its receipt and from a SEND to its message at 50, 99 and 99.9 per cent, in
   microseconds, and how many processors the load took itself. */
#define _GNU_SOURCE
#include <arpa/inet.h>
#include <errno.h>
#include <fcntl.h>
#include <netinet/tcp.h>
#include <pthread.h>
#include <stdatomic.h>
#include <stdarg.h>
#include <sys/epoll.h>
#include <sys/resource.h>
#include <sys/socket.h>
#include <time.h>
#include <unistd.h>

#include "rabbit.h"
#include "wire.h"

enum { PIECE = 1 << 18, MOST_OUT = 1 << 18, EVENTS = 256, EXCLUSIVE = 0, SHARED = 1, FAILOVER = 2, EARLIEST = 1, ID = 1, LAST_WAIT = 60 };

static struct {
    const char *address;
    unsigned connections, outstanding, bytes, batch, topics, consumers, type, permits, acks, threads;
    double seconds, warmup;
    uint64_t messages;
    int redis, rabbit;
} options = {.connections = 1, .outstanding = 1, .bytes = 100, .topics = 1, .permits = 1000, .acks = 1, .threads = 1, .seconds = 5, .warmup = 0.5};

enum phase { SETUP, WARMUP, MEASURED, LAST };
static _Thread_local enum phase phase = SETUP;

struct message_id {
    uint64_t ledger, entry;
};

struct connection {
    int socket, is_consumer, is_ready, is_watched;
    unsigned number, topic;
    struct buffer in, out;
    uint64_t sent, received; /* a producer's SENDs and receipts */
    uint64_t *sent_at;       /* when those that are under way were sent, a ring */
    int permits;             /* a consumer's that are left; below 0 what it owes */
    struct message_id *ids;  /* what it hasn't acknowledged yet */
    unsigned id_count;
};

static struct connection *all;
static unsigned count;
static atomic_uint ready;
static _Thread_local unsigned thread; /* this one's number: it has each connection whose number is that, modulo the threads */
static _Thread_local uint64_t *topic_receipts;
static _Thread_local int epoll;
static _Thread_local struct buffer payload; /* of an entry */
static _Thread_local size_t first_message;  /* where it begins there */
static _Thread_local struct buffer fields; /* of the command that is being written */

/* Counts and times */

static _Thread_local struct counts {
    uint64_t sent, receipts, messages, acknowledgements, errors;
} counted;

/* Times in microseconds: exact below 64, and else 32 places for each power of two. */
enum { PLACES = 32 * 60 };
struct histogram {
    uint64_t of[PLACES], all;
};
static _Thread_local struct histogram receipt_times, message_times;

static uint64_t nanoseconds(void) {
    struct timespec it;
    clock_gettime(CLOCK_MONOTONIC, &it);
    return it.tv_sec * 1000000000ull + it.tv_nsec;
}

static unsigned place_of(uint64_t n) {
    if (n < 64) return n;
    unsigned power = 63 - __builtin_clzll(n);
    return 32 * (power - 4) + (n >> (power - 5) & 31);
}

/* The middle of what falls on a place. */
static double time_at(unsigned place) {
    if (place < 64) return place;
    unsigned power = place / 32 + 4;
    return (32 + place % 32 + 0.5) * (1ull << (power - 5));
}

static void note_time(struct histogram *it, uint64_t from, uint64_t to) {
    if (phase != MEASURED) return;
    it->of[place_of((to - from) / 1000)]++;
    it->all++;
}

static double time_below(const struct histogram *it, double part) {
    uint64_t seen = 0;
    for (unsigned place = 0; place < PLACES; place++)
        if ((seen += it->of[place]) > 0 && seen >= part * it->all) return time_at(place);
    return 0;
}

static _Noreturn void fail(const char *format, ...) {
    va_list what;
    va_start(what, format);
    fputs("load: ", stderr);
    vfprintf(stderr, format, what);
    fputc('\n', stderr);
    exit(1);
}

/* What is sent */

static unsigned messages_of_an_entry(void) { return options.batch ? options.batch : 1; }

static void put_message(void) {
    memset(reserve(&payload, options.bytes), 'x', options.bytes);
    payload.end += options.bytes;
}

/* The payload of each entry: a message, or, of each of a batch, the size of its metadata, this metadata, which says how long it is, and the message. */
static void make_payload(void) {
    struct buffer metadata = {0};
    put_number(&metadata, 3, options.bytes);
    for (unsigned n = 0; n < options.batch; n++) {
        put_size(&payload, metadata.end);
        put(&payload, metadata.bytes, metadata.end);
        put_message();
    }
    if (options.batch) first_message = 4 + metadata.end;
    else put_message();
    free(metadata.bytes);
}

static size_t topic_name(char *to, unsigned topic) { return sprintf(to, "persistent://bench/serve/topic-%u", topic); }

static void ask_for_producer(struct connection *it) {
    char name[64];
    put_text(&fields, 1, name, topic_name(name, it->topic));
    put_number(&fields, 2, ID);
    put_number(&fields, 3, 1);
    put_command(&it->out, PRODUCER, &fields, 0);
}

static void ask_for_consumer(struct connection *it) {
    char name[64];
    put_text(&fields, 1, name, topic_name(name, it->topic));
    put_text(&fields, 2, name, sprintf(name, "load-%u", options.type == EXCLUSIVE ? it->number : 0));
    put_number(&fields, 3, options.type);
    put_number(&fields, 4, ID);
    put_number(&fields, 5, 1);
    put_number(&fields, 13, EARLIEST);
    put_command(&it->out, SUBSCRIBE, &fields, 0);
}

static void greet(struct connection *it) {
    put_text(&fields, 1, "load", 4);
    put_number(&fields, 4, 5);
    put_command(&it->out, CONNECT, &fields, 0);
}

static void put_send(struct connection *it, uint64_t now) {
    static _Thread_local struct buffer metadata;
    metadata.start = metadata.end = 0;
    put_text(&metadata, 1, "load", 4);
    put_number(&metadata, 2, it->sent);
    put_number(&metadata, 3, now / 1000000);
    if (options.batch) put_number(&metadata, 11, options.batch);
    put_number(&fields, 1, ID);
    put_number(&fields, 2, it->sent);
    if (options.batch) put_number(&fields, 3, options.batch);
    put_command(&it->out, SEND, &fields, 4 + metadata.end + payload.end);
    put_size(&it->out, metadata.end);
    put(&it->out, metadata.bytes, metadata.end);
    put(&it->out, payload.bytes, payload.end);
}

static void put_xadd(struct connection *it) {
    char head[128], topic[16];
    int size = sprintf(topic, "topic-%u", it->topic);
    put(&it->out, head, sprintf(head, "*5\r\n$4\r\nXADD\r\n$%d\r\n%s\r\n$1\r\n*\r\n$1\r\nm\r\n$%u\r\n", size, topic, options.bytes));
    put(&it->out, payload.bytes, payload.end);
    put(&it->out, "\r\n", 2);
}

static void put_to_queue(struct connection *it) {
    char queue[16];
    sprintf(queue, "topic-%u", it->topic);
    put_publish(&it->out, queue, payload.bytes, payload.end);
}

static void ask_for_queue(struct connection *it) {
    char queue[16];
    sprintf(queue, "topic-%u", it->topic);
    put_declare(&it->out, queue);
}

/* Sends as many as may be under way, as far as there is room for what isn't written yet. */
static void publish(struct connection *it, uint64_t now) {
    if (it->is_consumer || !it->is_ready || phase == SETUP || phase == LAST) return;
    memcpy(payload.bytes + first_message, &now, sizeof now); /* so that a consumer can tell how old the entry is */
    while (it->sent - it->received < options.outstanding && in_use(&it->out) < MOST_OUT) {
        if (options.redis) put_xadd(it);
        else if (options.rabbit) put_to_queue(it);
        else put_send(it, now);
        it->sent_at[it->sent++ % options.outstanding] = now;
        counted.sent++;
    }
}

static void grant(struct connection *it) {
    if (it->permits > (int)options.permits / 2) return;
    put_number(&fields, 1, ID);
    put_number(&fields, 2, (int)options.permits - it->permits);
    put_command(&it->out, FLOW, &fields, 0);
    it->permits = options.permits;
}

static void acknowledge(struct connection *it) {
    put_number(&fields, 1, ID);
    put_number(&fields, 2, 0);
    for (unsigned n = 0; n < it->id_count; n++) {
        static _Thread_local struct buffer id;
        id.start = id.end = 0;
        put_number(&id, 1, it->ids[n].ledger);
        put_number(&id, 2, it->ids[n].entry);
        put_text(&fields, 3, id.bytes, id.end);
    }
    put_number(&fields, 8, it->id_count); /* the request id says of how many this is, so that the answer does */
    put_command(&it->out, ACK, &fields, 0);
    it->id_count = 0;
}

/* What comes */

static void be_ready(struct connection *it) {
    it->is_ready = 1;
    ready++;
    if (it->is_consumer) grant(it);
}

static void take_receipt(struct connection *it, uint64_t now) {
    if (it->received == it->sent) fail("a receipt that isn't due");
    note_time(&receipt_times, it->sent_at[it->received++ % options.outstanding], now);
}

static void take_message(struct connection *it, const struct reply *got, uint64_t now) {
    struct reply id;
    const unsigned char *content = payload_of(got, first_message + sizeof(uint64_t));
    if (!it->is_consumer || !content || !take_fields(&id, got->text[2].bytes, got->text[2].bytes + got->text[2].size)) fail("a message that can't be read");
    uint64_t sent;
    memcpy(&sent, content + first_message, sizeof sent);
    note_time(&message_times, sent, now);
    counted.messages += messages_of_an_entry();
    it->ids[it->id_count++] = (struct message_id){id.number[1], id.number[2]};
    if (it->id_count == options.acks) acknowledge(it);
    it->permits -= messages_of_an_entry();
    grant(it);
}

static void take(struct connection *it, const struct reply *got, uint64_t now) {
    switch (got->type) {
    case CONNECTED:
        if (it->is_consumer) ask_for_consumer(it);
        else ask_for_producer(it);
        return;
    case PRODUCER_SUCCESS:
    case SUCCESS: be_ready(it); return;
    case SEND_RECEIPT:
        if (got->number[2] != it->received) fail("a receipt out of turn");
        counted.receipts++;
        topic_receipts[it->topic]++;
        take_receipt(it, now);
        return;
    case SEND_ERROR:
        counted.errors++;
        take_receipt(it, now);
        return;
    case MESSAGE: take_message(it, got, now); return;
    case ACK_RESPONSE:
        if (got->has & 1u << 4) counted.errors++;
        else counted.acknowledgements += got->number[6];
        return;
    case ERROR: fail("refused: %.*s", (int)got->text[3].size, got->text[3].bytes);
    default: fail("a reply of type %u", got->type);
    }
}

/* The size of the whole frame at the front, with its totalSize, or 0 where it isn't there yet. */
static size_t frame_at(const struct buffer *in) {
    const unsigned char *at = in->bytes + in->start;
    return in_use(in) < 4 || in_use(in) < 4 + size_at(at) ? 0 : 4 + size_at(at);
}

static void take_frames(struct connection *it, uint64_t now) {
    struct reply got;
    for (size_t size; (size = frame_at(&it->in)) > 0; it->in.start += size) {
        if (!take_reply(&got, it->in.bytes + it->in.start + 4, size - 4)) fail("a frame that can't be read");
        take(it, &got, now);
    }
}

/* The size of the line at the front, with its end, or 0 where it isn't there yet. */
static size_t line_at(const struct buffer *in) {
    const unsigned char *at = in->bytes + in->start, *end = memchr(at, '\n', in_use(in));
    return end ? end + 1 - at : 0;
}

/* The answer to an XADD is an id in two lines, or an error in one. */
static void take_lines(struct connection *it, uint64_t now) {
    for (size_t size; (size = line_at(&it->in)) > 0; it->in.start += size) {
        char kind = it->in.bytes[it->in.start];
        if (kind == '$') continue;
        if (kind == '-') counted.errors++;
        else counted.receipts++;
        take_receipt(it, now);
    }
}

/* A confirm, or a refusal, is of one message or of all up to it that had none yet. Messages count from 1, and are answered in any order. */
static void take_confirm(struct connection *it, const unsigned char *arguments, uint64_t *answers, uint64_t now) {
    uint64_t last = (uint64_t)size_at(arguments) << 32 | size_at(arguments + 4);
    int is_of_all = arguments[8] & 1;
    if (last <= it->received || last > it->sent) fail("a confirm that isn't due");
    for (uint64_t n = is_of_all ? it->received : last - 1; n < last; n++) {
        uint64_t *sent_at = &it->sent_at[n % options.outstanding];
        if (!*sent_at) continue;
        note_time(&receipt_times, *sent_at, now);
        *sent_at = 0;
        ++*answers;
    }
    while (it->received < it->sent && !it->sent_at[it->received % options.outstanding]) it->received++;
}

static void take_method(struct connection *it, const unsigned char *method, uint64_t now) {
    switch (size_at(method)) {
    case START: put_method(&it->out, 0, START_OK, AS_GUEST); return;
    case TUNE:
        put_method(&it->out, 0, TUNE_OK, ONE_CHANNEL);
        put_method(&it->out, 0, OPEN, ROOT);
        return;
    case OPEN_OK: put_method(&it->out, CHANNEL, CHANNEL_OPEN, NOTHING); return;
    case CHANNEL_OPEN_OK: ask_for_queue(it); return;
    case QUEUE_DECLARE_OK: put_method(&it->out, CHANNEL, CONFIRM_SELECT, NOTHING); return;
    case CONFIRM_SELECT_OK: be_ready(it); return;
    case CONFIRM: take_confirm(it, method + 4, &counted.receipts, now); return;
    case REFUSAL: take_confirm(it, method + 4, &counted.errors, now); return;
    case CONNECTION_CLOSE:
    case CHANNEL_CLOSE: fail("refused: %.*s", method[6], method + 7);
    default: fail("a method of class %u, number %u", method[0] << 8 | method[1], method[2] << 8 | method[3]);
    }
}

static void take_rabbit_frames(struct connection *it, uint64_t now) {
    for (size_t size; (size = rabbit_frame_at(&it->in)) > 0; it->in.start += size) {
        const unsigned char *method = method_in(it->in.bytes + it->in.start, size);
        if (!method) fail("a frame that can't be read");
        take_method(it, method, now);
    }
}

/* The loop */

static void watch(struct connection *it, int with_room) {
    struct epoll_event event = {EPOLLIN | (with_room ? EPOLLOUT : 0), {.ptr = it}};
    if (epoll_ctl(epoll, EPOLL_CTL_MOD, it->socket, &event)) fail("epoll: %s", strerror(errno));
    it->is_watched = with_room;
}

/* Writes what goes; more is sent once there is room for it. */
static void flush(struct connection *it) {
    while (in_use(&it->out) > 0) {
        ssize_t wrote = write(it->socket, it->out.bytes + it->out.start, in_use(&it->out));
        if (wrote < 0 && errno != EAGAIN) fail("a connection failed: %s", strerror(errno));
        if (wrote < 0) break;
        it->out.start += wrote;
        publish(it, nanoseconds());
    }
    if ((in_use(&it->out) > 0) != it->is_watched) watch(it, !it->is_watched);
}

static void receive(struct connection *it) {
    ssize_t got = read(it->socket, reserve(&it->in, PIECE), PIECE);
    if (got < 0 && errno == EAGAIN) return;
    if (got <= 0) fail("a connection ended: %s", got ? strerror(errno) : "by the other side");
    it->in.end += got;
    uint64_t now = nanoseconds();
    if (options.redis) take_lines(it, now);
    else if (options.rabbit) take_rabbit_frames(it, now);
    else take_frames(it, now);
}

static void turn(void) {
    struct epoll_event events[EVENTS];
    int happened = epoll_wait(epoll, events, EVENTS, 10);
    if (happened < 0 && errno != EINTR) fail("epoll: %s", strerror(errno));
    for (int n = 0; n < happened; n++) {
        struct connection *it = events[n].data.ptr;
        if (events[n].events & ~EPOLLOUT) receive(it);
        publish(it, nanoseconds());
        flush(it);
    }
}

/* Works up to a time, or until all messages came that are awaited. */
static void turn_until(uint64_t end) {
    while (nanoseconds() < end && !(options.messages && counted.messages >= options.messages)) turn();
}

static int is_any_under_way(void) {
    for (unsigned n = thread; n < count; n += options.threads)
        if (all[n].sent != all[n].received) return 1;
    return 0;
}

static void begin(enum phase next) {
    phase = next;
    for (unsigned n = thread; n < count; n += options.threads) {
        publish(&all[n], nanoseconds());
        flush(&all[n]);
    }
}

/* Beginning and end */

static struct sockaddr_in address(void) {
    char host[64];
    unsigned port;
    struct sockaddr_in it = {.sin_family = AF_INET};
    if (sscanf(options.address, "%63[0-9.]:%u", host, &port) != 2 || !inet_aton(host, &it.sin_addr)) fail("no address: %s", options.address);
    it.sin_port = htons(port);
    return it;
}

static void open_connection(struct connection *it, unsigned number) {
    struct sockaddr_in to = address();
    int yes = 1;
    it->is_consumer = number >= options.connections;
    it->number = it->is_consumer ? number - options.connections : number;
    it->topic = it->number % options.topics;
    it->sent_at = calloc(options.outstanding, sizeof *it->sent_at);
    it->ids = calloc(options.acks, sizeof *it->ids);
    it->socket = socket(AF_INET, SOCK_STREAM, 0);
    if (!it->sent_at || !it->ids || connect(it->socket, (struct sockaddr *)&to, sizeof to)) fail("no connection: %s", strerror(errno));
    setsockopt(it->socket, IPPROTO_TCP, TCP_NODELAY, &yes, sizeof yes);
    fcntl(it->socket, F_SETFL, O_NONBLOCK);
    struct epoll_event event = {EPOLLIN, {.ptr = it}};
    if (epoll_ctl(epoll, EPOLL_CTL_ADD, it->socket, &event)) fail("epoll: %s", strerror(errno));
    if (options.redis) be_ready(it);
    else if (options.rabbit) put(&it->out, GREETING);
    else greet(it);
}

static double processor_seconds(void) {
    struct rusage used;
    getrusage(RUSAGE_THREAD, &used);
    return used.ru_utime.tv_sec + used.ru_stime.tv_sec + (used.ru_utime.tv_usec + used.ru_stime.tv_usec) / 1e6;
}

static void print_times(const char *name, const struct histogram *it) {
    printf("\"%s\": [%.0f, %.0f, %.0f], ", name, time_below(it, 0.5), time_below(it, 0.99), time_below(it, 0.999));
}

/* What all threads counted. */
static struct {
    pthread_mutex_t lock;
    struct counts measured, whole;
    struct histogram receipt_times, message_times;
    uint64_t *topic_receipts;
    double took, processors;
} together = {.lock = PTHREAD_MUTEX_INITIALIZER};

static void add_times(struct histogram *to, const struct histogram *it) {
    for (unsigned place = 0; place < PLACES; place++) to->of[place] += it->of[place];
    to->all += it->all;
}

static void add_counts(struct counts *to, const struct counts *it, const struct counts *without) {
    to->sent += it->sent - without->sent;
    to->receipts += it->receipts - without->receipts;
    to->messages += it->messages - without->messages;
    to->acknowledgements += it->acknowledgements - without->acknowledgements;
    to->errors += it->errors - without->errors;
}

static void add(double took, double processors, const struct counts *before, const struct counts *behind) {
    static const struct counts none;
    pthread_mutex_lock(&together.lock);
    add_counts(&together.measured, behind, before);
    add_counts(&together.whole, &counted, &none);
    add_times(&together.receipt_times, &receipt_times);
    add_times(&together.message_times, &message_times);
    for (unsigned n = 0; n < options.topics; n++) together.topic_receipts[n] += topic_receipts[n];
    together.took += took / options.threads;
    together.processors += processors;
    pthread_mutex_unlock(&together.lock);
}

/* One thread's part. */
static void *work(void *number) {
    thread = (unsigned)(uintptr_t)number;
    make_payload();
    epoll = epoll_create1(0);
    topic_receipts = calloc(options.topics, sizeof *topic_receipts);
    if (!topic_receipts || epoll < 0) fail("no memory");
    for (unsigned n = thread; n < count; n += options.threads) open_connection(&all[n], n);
    begin(SETUP);
    uint64_t began = nanoseconds();
    struct counts before = counted;
    double used = processor_seconds();
    while (ready < count) turn();
    begin(WARMUP);
    if (!options.messages) {
        turn_until(nanoseconds() + options.warmup * 1e9);
        before = counted;
        began = nanoseconds();
        used = processor_seconds();
    }
    phase = MEASURED;
    turn_until(began + options.seconds * 1e9);
    double took = (nanoseconds() - began) / 1e9, processors = (processor_seconds() - used) / took;
    struct counts behind = counted;
    phase = LAST;
    for (uint64_t end = nanoseconds() + LAST_WAIT * 1000000000ull; is_any_under_way() && nanoseconds() < end;) turn();
    add(took, processors, &before, &behind);
    return NULL;
}

static void run(void) {
    pthread_t threads[options.threads];
    for (unsigned n = 0; n < options.threads; n++)
        if (pthread_create(&threads[n], NULL, work, (void *)(uintptr_t)n)) fail("no thread");
    for (unsigned n = 0; n < options.threads; n++) pthread_join(threads[n], NULL);
}

static void print_all(void) {
    const struct counts *it = &together.measured, *whole = &together.whole;
    printf("{\"seconds\": %.3f, \"receipts\": %llu, \"messages\": %llu, \"acknowledgements\": %llu, ", together.took, (unsigned long long)it->receipts,
           (unsigned long long)it->messages, (unsigned long long)it->acknowledgements);
    print_times("receipt_times", &together.receipt_times);
    print_times("message_times", &together.message_times);
    fputs("\"topic_receipts\": [", stdout);
    for (unsigned n = 0; n < options.topics; n++) printf("%s%llu", n ? ", " : "", (unsigned long long)together.topic_receipts[n]);
    printf("], \"errors\": %llu, \"unanswered\": %llu, \"all_receipts\": %llu, \"processor\": %.2f}\n", (unsigned long long)whole->errors,
           (unsigned long long)(whole->sent - whole->receipts - whole->errors), (unsigned long long)whole->receipts, together.processors);
}

/* Options */

static unsigned whole(const char *word, unsigned least) {
    char *end;
    unsigned long n = strtoul(word, &end, 10);
    if (*end || n < least || n > 100000000) fail("no number for this option: %s", word);
    return n;
}

static unsigned type_named(const char *word) {
    static const char *names[] = {"exclusive", "shared", "failover"};
    for (unsigned n = 0; n < 3; n++)
        if (!strcmp(word, names[n])) return n;
    fail("no type of a subscription: %s", word);
}

static void take_option(const char *name, const char *value) {
    if (!strcmp(name, "--connections")) options.connections = whole(value, 0);
    else if (!strcmp(name, "--outstanding")) options.outstanding = whole(value, 1);
    else if (!strcmp(name, "--bytes")) options.bytes = whole(value, sizeof(uint64_t));
    else if (!strcmp(name, "--batch")) options.batch = whole(value, 0);
    else if (!strcmp(name, "--topics")) options.topics = whole(value, 1);
    else if (!strcmp(name, "--consumers")) options.consumers = whole(value, 0);
    else if (!strcmp(name, "--type")) options.type = type_named(value);
    else if (!strcmp(name, "--permits")) options.permits = whole(value, 1);
    else if (!strcmp(name, "--acks")) options.acks = whole(value, 1);
    else if (!strcmp(name, "--redis")) options.redis = whole(value, 0) != 0;
    else if (!strcmp(name, "--rabbit")) options.rabbit = whole(value, 0) != 0;
    else if (!strcmp(name, "--messages")) options.messages = whole(value, 1);
    else if (!strcmp(name, "--threads")) options.threads = whole(value, 1);
    else if (!strcmp(name, "--seconds")) options.seconds = atof(value);
    else if (!strcmp(name, "--warmup")) options.warmup = atof(value);
    else fail("no such option: %s", name);
}

static void take_options(int words, char **word) {
    if (words < 2) fail("no address");
    options.address = word[1];
    for (int n = 2; n < words; n += 2) {
        if (n + 1 == words) fail("no value of %s", word[n]);
        take_option(word[n], word[n + 1]);
    }
    if ((options.redis || options.rabbit) && (options.consumers || options.batch)) fail("no consumers and no batches with --redis or --rabbit");
    if (options.redis && options.rabbit) fail("--redis or --rabbit, not both");
    if (options.messages || options.threads > options.connections + options.consumers) options.threads = 1;
}

int main(int words, char **word) {
    take_options(words, word);
    count = options.connections + options.consumers;
    all = calloc(count, sizeof *all);
    together.topic_receipts = calloc(options.topics, sizeof *together.topic_receipts);
    if (!all || !together.topic_receipts) fail("no memory");
    run();
    print_all();
    return 0;
}
