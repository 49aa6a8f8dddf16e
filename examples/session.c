/* A whole session, both ends in one program: open, answer and take in a loop, with buffers that grow where a call finds them too small.

       gcc -Iinclude examples/session.c target/staticlib/libcapi.a -o session && ./session
       gcc examples/session.c $(pkg-config --cflags --libs recon) -o session && ./session     (once it is installed)

   It is C99 and C++11. examples/session.rs is the same program in Rust, and prints the same. */
#include <inttypes.h>
#include <stdio.h>
#include <stdlib.h>

#include "recon.h"

/* Records, as the calls take them: times and ids in the same order, rising. */
typedef struct {
    size_t count;
    uint64_t *times;
    uint8_t *ids;
} table;

/* Bytes that can grow; the message in them, if any, is the first `length`. */
typedef struct {
    uint8_t *bytes;
    size_t size;
    size_t length;
} buffer;

/* What the opener keeps from one call to the next. Its records stay the same: a take with others is refused by 18. The responder keeps its table
   alone. */
typedef struct {
    table records;
    buffer marks;
    buffer needed;
    buffer query;
    recon_session session;
} opener;

static void *resized(void *old, size_t size) {
    void *bytes = realloc(old, size);
    if (bytes == NULL && size > 0) {
        fprintf(stderr, "session: no memory for %zu bytes\n", size);
        exit(2);
    }
    return bytes;
}

static buffer new_buffer(size_t size) {
    buffer b = {(uint8_t *)resized(NULL, size), size, 0};
    return b;
}

/* Twice as large, with the bytes in it kept. */
static void grow(buffer *b) {
    b->size *= 2;
    b->bytes = (uint8_t *)resized(b->bytes, b->size);
}

static void stop(const char *call, uint64_t refusal) {
    fprintf(stderr, "session: %s: refused (%" PRIu64 "): %s\n", call, refusal, recon_strerror(refusal));
    exit(2);
}

/* The records numbered 0 to 1,999 except `first` and each `step` behind it. A record's number settles its time and its id. */
static table records_except(uint64_t first, uint64_t step) {
    const size_t numbers = 2000;
    table t = {0, (uint64_t *)resized(NULL, numbers * sizeof(uint64_t)), (uint8_t *)resized(NULL, numbers * RECON_ID_BYTES)};
    for (uint64_t number = 0; number < numbers; number++) {
        uint8_t big_endian[8];
        if (number % step == first)
            continue;
        for (size_t i = 0; i < 8; i++)
            big_endian[i] = (uint8_t)(number >> (56 - 8 * i));
        t.times[t.count] = 1700000000 + 60 * number;
        recon_sha256(big_endian, sizeof big_endian, t.ids + t.count * RECON_ID_BYTES);
        t.count++;
    }
    return t;
}

/* The opener with its first query. Its buffers are small on purpose: RECON_OPENING_BYTES would save the second call. */
static opener open_session(table t) {
    opener o = {t, new_buffer(t.count), new_buffer(RECON_ID_BYTES), new_buffer(64), {0, 0, false, {{0, 0, 0, 0}, 0}}};
    for (;;) {
        recon_session_answer sent = recon_open(t.times, t.count, t.ids, t.count * RECON_ID_BYTES, RECON_DEFAULT_PARTS, RECON_DEFAULT_LIMIT,
                                               o.marks.bytes, t.count, o.needed.bytes, o.needed.size, o.query.bytes, o.query.size);
        if (sent.refusal == RECON_OK) {
            o.session = sent.session;
            o.query.length = sent.length;
            return o;
        }
        if (sent.refusal != RECON_NO_ROOM)
            stop("recon_open", sent.refusal);
        grow(&o.query);
    }
}

/* The responder's reply to a query. */
static void answer(table t, const buffer *query, buffer *reply) {
    for (;;) {
        recon_answer_t sent = recon_answer(t.times, t.count, t.ids, t.count * RECON_ID_BYTES, RECON_DEFAULT_PARTS, RECON_DEFAULT_LIMIT,
                                           query->bytes, query->length, reply->bytes, reply->size);
        if (sent.refusal == RECON_OK) {
            reply->length = sent.length;
            return;
        }
        if (sent.refusal != RECON_NO_ROOM)
            stop("recon_answer", sent.refusal);
        grow(reply);
    }
}

/* The opener takes a reply; then the session is done, or the next query stands in its buffer. */
static void take(opener *o, const buffer *reply) {
    const table t = o->records;
    for (;;) {
        recon_session_answer sent = recon_take(t.times, t.count, t.ids, t.count * RECON_ID_BYTES, RECON_DEFAULT_PARTS, RECON_DEFAULT_LIMIT,
                                               reply->bytes, reply->length, o->session, o->marks.bytes, t.count, o->needed.bytes,
                                               o->needed.size, o->query.bytes, o->query.size);
        if (sent.refusal == RECON_OK) {
            o->session = sent.session;
            o->query.length = sent.length;
            return;
        }
        if (sent.refusal == RECON_NEEDED_FULL)
            grow(&o->needed);
        else if (sent.refusal == RECON_NO_ROOM)
            grow(&o->query);
        else
            stop("recon_take", sent.refusal);
    }
}

static void print_id(const uint8_t *id) {
    for (size_t i = 0; i < RECON_ID_BYTES; i++)
        printf("%02x", id[i]);
    printf("\n");
}

static void print_reports(const opener *o) {
    for (size_t i = 0; i < o->records.count; i++)
        if (o->marks.bytes[i] == 1) {
            printf("ours only    %" PRIu64 " ", o->records.times[i]);
            print_id(o->records.ids + i * RECON_ID_BYTES);
        }
    for (size_t i = 0; i < o->session.needed; i++) {
        printf("theirs only  ");
        print_id(o->needed.bytes + i * RECON_ID_BYTES);
    }
}

static void free_table(table t) {
    free(t.times);
    free(t.ids);
}

int main(void) {
    table theirs = records_except(3, 500);
    opener ours = open_session(records_except(7, 400));
    buffer reply = new_buffer(64);
    size_t rounds = 0, sent = 0, received = 0;
    while (!ours.session.done) {
        rounds++;
        sent += ours.query.length; /* between two machines, this is where the query goes over .. */
        answer(theirs, &ours.query, &reply);
        received += reply.length; /* .. and the reply comes back */
        take(&ours, &reply);
    }
    print_reports(&ours);
    printf("%zu rounds: %zu bytes sent, %zu bytes received\n", rounds, sent, received);
    free_table(theirs);
    free_table(ours.records);
    free(ours.marks.bytes);
    free(ours.needed.bytes);
    free(ours.query.bytes);
    free(reply.bytes);
    if (fflush(stdout) != 0 || ferror(stdout)) {
        fprintf(stderr, "session: the reports could not be written\n");
        return 2;
    }
    return 0;
}
