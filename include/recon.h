/* recon's calls for C: range-based set reconciliation with the messages of the Negentropy Protocol V1.

   A table is n times and n ids of 32 bytes each, in the same order, strictly rising by time and then by id (byte by byte from the first),
   with times below 2^64 - 1 and n at most 1,048,576. A cut is its parts (2 to 64) and its list limit (parts to 4,096).

   Link with librecon.a, which `make install` installs together with this file (for pkg-config both are `recon`), or with the file that it is a
   copy of, target/staticlib/libcapi.a. examples/session.c is a complete program, recon(3) the manual page.

   Every call answers for any values. A refused call answers with the number of its refusal, below, and changes nothing. Look at the refusal
   before the session: only an answer without one says that the session went on. On 11 (RECON_NEEDED_FULL), 12 (RECON_NO_ROOM) and 17
   (RECON_TABLE_FULL) too nothing has changed: grow the buffer and call again.

   What a caller owes:
   - a pointer points to as many elements as its length says; where the length is 0 it is not looked at, and may be null;
   - none of the bytes that a call may write overlap any other that it is handed;
   - there is stack: a take keeps less than 512 KiB on it, a call that folds in less than 200 KiB, a conversion and a call on a tree
     less than 16 KiB. */
#ifndef RECON_H
#define RECON_H

#include <stdbool.h>
#include <stddef.h>
#include <stdint.h>

#ifdef __cplusplus
extern "C" {
#endif

#define RECON_VERSION "0.1.0"
#define RECON_VERSION_MAJOR 0
#define RECON_VERSION_MINOR 1
#define RECON_VERSION_PATCH 0

/* Sizes in bytes. */
#define RECON_ID_BYTES 32
#define RECON_FINGERPRINT_BYTES 16
#define RECON_DIGEST_BYTES 32
#define RECON_LABEL_BYTES 40

/* The most items of a table, the limits of a cut (the list limit is at least the parts), and a cut for those who have no reason for another. */
#define RECON_MAX_ITEMS 1048576
#define RECON_MIN_PARTS 2
#define RECON_MAX_PARTS 64
#define RECON_MAX_LIMIT 4096
#define RECON_DEFAULT_PARTS 16
#define RECON_DEFAULT_LIMIT 64

/* The least byte limit. */
#define RECON_MIN_BYTE_LIMIT 4096

/* The bytes that an opening can need at most: with a given cut, and with any. It lists up to `limit` ids, or has a fingerprint for each part. */
#define RECON_OPENING_BYTES(parts, limit) \
    (6 + 32 * (limit) > 1 + 60 * (parts) ? 6 + 32 * (limit) : 1 + 60 * (parts))
#define RECON_MAX_OPENING_BYTES 131078

/* The bytes of the tree over so many items: RECON_LABEL_BYTES for each of its 2^(k+1) - 1 labels, 2^k being the smallest power of two not below
   the items. 0 for more items than a table can have. */
static inline size_t recon_tree_bytes(size_t items) {
    size_t places = 1;
    if (items > RECON_MAX_ITEMS)
        return 0;
    while (places < items)
        places *= 2;
    return RECON_LABEL_BYTES * (2 * places - 1);
}

/* The refusals: name, number, and what recon_strerror says of it. They are checked in the order of their numbers, save that 13 comes right
   after 2, 14 right after 3, 18 right after 4, 15 and 16 right after 5, and 17 in the place of 11. Of a message: its first byte is 0x61, or 0x60 to
   0x6F for an answer (6), no varint starts with 0x80 (8), and no mode is above 2 (10). */
#define RECON_REFUSALS(REFUSAL) \
    REFUSAL(RECON_TABLE_SIZE, 1, "the id bytes are not 32 for each time, or there are more than 1,048,576 items") \
    REFUSAL(RECON_TABLE_ORDER, 2, "the items do not rise strictly by time and id, or a time is 2^64 - 1") \
    REFUSAL(RECON_CUT_LIMITS, 3, "the cut is outside its limits: parts 2 to 64, list limit from the parts to 4,096") \
    REFUSAL(RECON_WRONG_STATE, 4, "marks, needed buffer and session do not fit the table or each other") \
    REFUSAL(RECON_SESSION_DONE, 5, "the session is done") \
    REFUSAL(RECON_WRONG_VERSION, 6, "the message is empty or begins with no protocol version that is spoken here") \
    REFUSAL(RECON_TRUNCATED, 7, "the message ends inside a range") \
    REFUSAL(RECON_BAD_VARINT, 8, "a number in the message has a leading zero or passes 2^64 - 1") \
    REFUSAL(RECON_BAD_BOUND, 9, "a bound has a time or a prefix that it cannot have, or is not above the one before it") \
    REFUSAL(RECON_BAD_MODE, 10, "a range of the message has an unknown mode") \
    REFUSAL(RECON_NEEDED_FULL, 11, "the needed buffer is too small for the ids that are lacking") \
    REFUSAL(RECON_NO_ROOM, 12, "the out buffer is too small for the message") \
    REFUSAL(RECON_WRONG_TREE, 13, "the tree is not as long as one over these items is, or has no free place") \
    REFUSAL(RECON_BYTE_LIMIT, 14, "the byte limit is below 4,096") \
    REFUSAL(RECON_SESSION_OPEN, 15, "the session is not done") \
    REFUSAL(RECON_NOT_DUE, 16, "an id of the batch is not on the needed list, or its item is already in the table") \
    REFUSAL(RECON_TABLE_FULL, 17, "the table's buffers cannot hold the merge, or it exceeds 1,048,576 items") \
    REFUSAL(RECON_OTHER_TABLE, 18, "the table is not the one that the session was opened with")

#define RECON_ENUMERATOR(name, number, text) name = number,
enum { RECON_REFUSALS(RECON_ENUMERATOR) RECON_OK = 0 };
#undef RECON_ENUMERATOR

/* What a refusal means, in English; "no refusal" for 0, "unknown refusal" for a number that is none. Never to be freed. */
#define RECON_CASE(name, number, text) \
    case number: \
        return text;
static inline const char *recon_strerror(uint64_t number) {
    switch (number) {
        RECON_REFUSALS(RECON_CASE)
    case RECON_OK:
        return "no refusal";
    default:
        return "unknown refusal";
    }
}
#undef RECON_CASE

/* The label of some items. An id is summed as a number whose least significant byte is its first. That of no items
   is the empty label, all 0. */
typedef struct {
    uint64_t sum[4]; /* the sum of their ids modulo 2^256, least significant word first */
    uint64_t count;  /* how many they are */
} recon_label;

/* The opener's session. It goes with the marks and the needed list as the last call left them, and with the table of its opening. */
typedef struct {
    size_t marked;     /* how many items have the mark 1 */
    size_t needed;     /* how many ids stand on the needed list: its bytes are 32 times as many */
    bool done;         /* whether all is reported */
    recon_label label; /* of the whole table at the opening */
} recon_session;

/* A session as it was before sessions had a label; recon_session_convert gives it one. */
typedef struct {
    size_t marked;
    size_t needed;
    bool done;
} recon_unlabelled_session;

/* What a responder's call answers. */
typedef struct {
    uint64_t refusal; /* the number of the refusal, 0 for none */
    size_t length;    /* the bytes of the message that was written; 0 where the call is refused */
} recon_answer_t;

/* What an opener's call answers: the same, and the session afterwards. */
typedef struct {
    uint64_t refusal;
    size_t length;
    recon_session session;
} recon_session_answer;

/* What an inquiry answers. */
typedef struct {
    uint64_t refusal; /* the number of the refusal, 0 for none; where the call is refused, the rest is 0 */
    size_t entering;  /* how many items would enter the table */
    size_t staying;   /* how many ids would stay on the needed list */
} recon_inquiry;

/* What a commit answers; where it is refused, items and session are as they were handed over. */
typedef struct {
    uint64_t refusal;
    size_t items;          /* how many items the table has afterwards */
    recon_session session; /* the session afterwards */
} recon_commit;

/* What a judge of replies answers. */
typedef struct {
    uint64_t refusal; /* the number of the refusal, 0 for none */
    bool approved;    /* whether the reply is approved; false where the call is refused */
} recon_judgement;

/* What the label of a run answers. */
typedef struct {
    uint64_t refusal;  /* the number of the refusal, 0 for none; where the call is refused, the rest is 0 */
    recon_label label; /* of the items at the places of the run */
    uint64_t visited;  /* how many labels of the tree were visited for it */
} recon_tree_answer;

/* The lengths in the calls below:
     times_len    elements: how many times, one for each item
     ids_len      bytes: 32 for each item
     marks_len    bytes: one for each item
     needed_len   bytes: of whole ids, so a multiple of 32
     id_len       bytes: 32
     tree_len     bytes: recon_tree_bytes(times_len), where the call is handed a table
     batch_times_len and batch_ids_len as times_len and ids_len, of the items of the batch
   and all others (out_len, query_len, reply_len, lower_prefix_len, upper_prefix_len, m_len) bytes. Where a call is handed `items`, the table is the
   first so many of its buffers, and times_len and ids_len are those of the buffers: at least 1 and 32 for each item. */

/* Opens a session: writes the first query at the start of out and sets the marks, one byte for each item, to 0. The needed buffer, of whole
   ids, is only looked at: the list in it is empty now. Bytes of out behind the message stay.
   Refuses by 1 to 4 and 12; the session is then { 0, 0, false, the empty label }: nothing is reported, and it is not done. On 12 nothing has
   changed: grow out and call again; RECON_OPENING_BYTES(parts, limit) bytes are always enough. */
recon_session_answer recon_open(const uint64_t *times, size_t times_len, const uint8_t *ids, size_t ids_len, size_t parts, size_t limit,
                                uint8_t *marks, size_t marks_len, const uint8_t *needed, size_t needed_len, uint8_t *out, size_t out_len);

/* The responder's answer to a query, written at the start of out; bytes of out behind the message stay. A query whose first byte is 0x60 to
   0x6F but not 0x61 is of another protocol version: nothing more of it is read, and it is answered with the byte 0x61 alone. So an answer to
   0x62 is the byte 0x61 and starts no session; the other end may open one with 0x61.
   Refuses by 1 to 3, 6 to 10 and 12. On 12 nothing has changed: grow out and call again. */
recon_answer_t recon_answer(const uint64_t *times, size_t times_len, const uint8_t *ids, size_t ids_len, size_t parts, size_t limit,
                            const uint8_t *query, size_t query_len, uint8_t *out, size_t out_len);

/* The opener takes a reply. The mark 1 is set on each own item that the other end lacks, ids that the opener lacks join to the needed list at
   the start of its buffer (rising, without repeats), and the next query is written at the start of out. If it would say nothing, the
   session is done, and nothing is written (length 0). Bytes behind the list and behind the message stay.
   Refuses by 1 to 4, 18 and 5 to 12, in this order; the session is then the one that was handed over. On 11 and 12 nothing has changed: grow the
   buffer (needed, with the list in it kept, on 11; out on 12) and call again. A needed buffer with room for session.needed + reply_len / 32 ids
   never meets 11, and spares the call the counting of new ids, which takes longest where they have no room. */
recon_session_answer recon_take(const uint64_t *times, size_t times_len, const uint8_t *ids, size_t ids_len, size_t parts, size_t limit,
                                const uint8_t *reply, size_t reply_len, recon_session session, uint8_t *marks, size_t marks_len,
                                uint8_t *needed, size_t needed_len, uint8_t *out, size_t out_len);

/* Byte limits. The three calls once more, with the most bytes that the message written may have, the byte 0x61 included. A message that would
   exceed its limit is cut short: of its ranges the longest run from the start is kept that fits together with one last range, the fingerprint of
   the own items from the run's end to infinity. An ids range that does not fit whole is cut after the most ids that fit; if not one fits, the run
   ends before it. The last range stands for all that was left out; the two ends compare it, and later rounds bring what differs.
   Every call is given its own limit: calls with different limits, and without one, may stand in one session, at either end. Reports are as true,
   and once the session is done as complete, as without limits; it may take more rounds where a message was cut short.
   Checks and answers are those of the call without a limit, and bytes below RECON_MIN_BYTE_LIMIT, 0 too, is refused by 14, right after 3. The out
   buffer may have fewer than `bytes` bytes and never needs more. Its length cuts nothing short: where the message, within its limit, is longer than
   out, the call is refused by 12. With out_len as the limit no call is, so that RECON_MIN_BYTE_LIMIT bytes are enough for every message. */

/* Opens a session, as recon_open does, with a query of at most `bytes` bytes.
   Refuses by 1 to 3, 14, 4 and 12, in this order. */
recon_session_answer recon_open_within(const uint64_t *times, size_t times_len, const uint8_t *ids, size_t ids_len, size_t parts, size_t limit,
                                       size_t bytes, uint8_t *marks, size_t marks_len, const uint8_t *needed, size_t needed_len, uint8_t *out,
                                       size_t out_len);

/* The responder's answer to a query, as by recon_answer, of at most `bytes` bytes. A query of another protocol version is answered alike.
   Refuses by 1 to 3, 14, 6 to 10 and 12, in this order. */
recon_answer_t recon_answer_within(const uint64_t *times, size_t times_len, const uint8_t *ids, size_t ids_len, size_t parts, size_t limit,
                                   size_t bytes, const uint8_t *query, size_t query_len, uint8_t *out, size_t out_len);

/* The opener takes a reply, as recon_take does, and writes a next query of at most `bytes` bytes. Marks, needed list and whether the session is
   done do not depend on the limit.
   Refuses by 1 to 3, 14, 4, 18 and 5 to 12, in this order. */
recon_session_answer recon_take_within(const uint64_t *times, size_t times_len, const uint8_t *ids, size_t ids_len, size_t parts, size_t limit,
                                       size_t bytes, const uint8_t *reply, size_t reply_len, recon_session session, uint8_t *marks,
                                       size_t marks_len, uint8_t *needed, size_t needed_len, uint8_t *out, size_t out_len);

/* A session and its table. A session carries the label of the whole table at its opening. A take compares it with the label of the table that it
   is handed, and where they differ it is refused by 18 (RECON_OTHER_TABLE), whether the session is done or not: the table has changed since the
   opening, so the marks stand beside other items. Hand over the table of the opening again, or open a new session. Where the number of items has
   changed, the marks do not fit any more, and the refusal is 4.
   A label has no times, and two tables can have one label. A table that was changed to the same label (by a time, say) is not refused, and is
   outside what is promised.
   Takes and commits keep the label of the opening. So after a commit a take with the merged table is refused. */

/* Gives its label to a session that was kept from before sessions had one: answers the session that is handed over with the label of the table, and
   the length 0. Table, marks and needed list are those of the session: the table of its opening, also after a commit, and the rest as the last
   call left it. A session that is done is converted like others. Nothing that is lent changes.
   Refuses by 1, 2 and 4, judged as by a take; the session is then { 0, 0, false, the empty label }: nothing is reported, and it is not done. */
recon_session_answer recon_session_convert(const uint64_t *times, size_t times_len, const uint8_t *ids, size_t ids_len,
                                           recon_unlabelled_session session, const uint8_t *marks, size_t marks_len, const uint8_t *needed,
                                           size_t needed_len);

/* Folding in. Once a session is done, the opener's table can take the items that the other end hands over, a batch at a time. A batch is times
   and ids, ordered like a table. The table is the first `items` of its buffers, which may be longer, and of different lengths.
   Both calls make the same checks, in this order:
      1  a buffer of the table is too short for its items, the batch's id bytes are not 32 for each time, or either has more than RECON_MAX_ITEMS
      2  the items of the table or of the batch do not rise strictly, or a time is 2^64 - 1
      4  needed_len is not a multiple of 32, has no room for session.needed ids, or these do not rise strictly
     15  the session is not done
     16  an id of the batch is not on the needed list, or its item, with this time and this id, is already in the table
     17  a buffer of the table is too short for the merge, or that has more than RECON_MAX_ITEMS
   Neither is handed the marks or judges their count, so several commits can follow one session. Neither compares the session's label: with the first
   commit the table becomes another than that of the opening. The marks remain those of the items that the table had in the session, and a tree over
   the table has to be built anew after a commit.
   Once no id is needed any more, and each item was handed over as the other end holds it, the table is the union of both: under the conditions on
   which a session reports all, and if nothing else has changed either table since the opening. That an item has the time under which the other
   end holds it cannot be checked here, since messages carry no times for ids. */

/* Tells what a commit of the batch would do, and changes nothing: how many items would enter the table, all of the batch, and how many ids would
   stay needed, those that the batch does not have. If nothing changes between, the commit does so; and where the inquiry is refused, the commit is
   refused by the same number.
   Refuses by 1, 2, 4 and 15 to 17. */
recon_inquiry recon_fold_inquire(const uint64_t *times, size_t times_len, const uint8_t *ids, size_t ids_len, size_t items,
                                 recon_session session, const uint8_t *needed, size_t needed_len, const uint64_t *batch_times,
                                 size_t batch_times_len, const uint8_t *batch_ids, size_t batch_ids_len);

/* Merges the batch into the table, at the front of its buffers, and takes its ids off the needed list, after every check was made afresh. An id that
   the batch has under two times leaves the list once, and both items enter. Elements of the table's buffers behind the merge stay, and so do
   bytes of needed behind the shorter list: what stood there before, ids that have left the list too. In the session only `needed` changes: the
   label stays that of the table at the opening.
   Refuses by 1, 2, 4 and 15 to 17; items and session are then those that were handed over. On 17 nothing has changed: if items + batch_times_len is
   at most RECON_MAX_ITEMS, grow the buffers to so many items and call again. */
recon_commit recon_fold_commit(uint64_t *times, size_t times_len, uint8_t *ids, size_t ids_len, size_t items, recon_session session,
                               uint8_t *needed, size_t needed_len, const uint64_t *batch_times, size_t batch_times_len,
                               const uint8_t *batch_ids, size_t batch_ids_len);

/* The fingerprint of the items at or above a lower bound and below an upper one, into the 16 bytes at out. A bound is infinite, or a time and
   a prefix of an id (0 to 32 bytes); missing id bytes count as 00. Where the lower bound is not below the upper one, the fingerprint of no items.
   Answers 0, or refuses by 1, 2 or 9 (a time 2^64 - 1, a prefix longer than 32, a prefix at infinity), and then out stays. */
uint64_t recon_fingerprint(const uint64_t *times, size_t times_len, const uint8_t *ids, size_t ids_len, bool lower_infinite,
                           uint64_t lower_time, const uint8_t *lower_prefix, size_t lower_prefix_len, bool upper_infinite,
                           uint64_t upper_time, const uint8_t *upper_prefix, size_t upper_prefix_len, uint8_t out[16]);

/* Judges a reply: whether it is one that a responder with this table may give to this query, however it cuts. That is so exactly when both messages
   can be read and begin with 0x61; wherever the query skips, or has a fingerprint that is the table's, the reply skips; inside any other fingerprint
   range of the query the reply skips nowhere, and has ids throughout or at least two ranges that meet it; each fingerprint of the reply is the
   table's, and each list has just the table's ids of its range, in any order; and where the query lists ids, the reply does. A message that cannot
   be read is not approved, and no refusal. Nothing that is lent changes.
   Every unrefused answer of recon_answer to a query that begins with 0x61 is approved, for any cut; one that was cut short by a byte limit may not be.
   Refuses by 1 and 2. */
recon_judgement recon_judge(const uint64_t *times, size_t times_len, const uint8_t *ids, size_t ids_len, const uint8_t *query, size_t query_len,
                            const uint8_t *reply, size_t reply_len);

/* SHA-256 (FIPS 180-4) of the m_len bytes at m, into the 32 bytes at out. Never refuses. */
void recon_sha256(const uint8_t *m, size_t m_len, uint8_t out[32]);

/* Trees of labels. A tree tells the label of any run of a table's items from a few stored labels, without summing the run item by item. Item
   i stands at place i. There are 2^k places, the smallest power of two not below the items (1 for no items); those behind the last item are
   free and have the empty label. The label of more places than one is the sum of those of its two halves. Each label takes RECON_LABEL_BYTES,
   the sum and then the count, least significant byte first. That of all places lies first, then level by level from the left. The caller keeps
   the tree beside its table; a call that is handed both checks that their lengths fit, and not that the labels do. */

/* Makes the bytes at tree the tree over a table, whatever they were. Takes time in proportion to the items.
   Answers 0, or refuses by 1, 2 or 13 (tree_len is not recon_tree_bytes(times_len)), and then the tree stays. */
uint64_t recon_tree_build(const uint64_t *times, size_t times_len, const uint8_t *ids, size_t ids_len, uint8_t *tree, size_t tree_len);

/* Brings the tree over a table to that over the table and one more item, above all others: the very bytes that a build would give. The table
   is lent as it was before the item, and is not changed: the caller puts the item behind it. The item's label is stored at the first free
   place, and the k labels above that place are made afresh from their halves. The checks take time in proportion to the items, the rest to k.
   Answers 0, or refuses by 1 (or id_len is not 32), 2 (or the item is not above the last, or its time is 2^64 - 1) or 13 (tree_len is not
   recon_tree_bytes(times_len), or no place is free), and then the tree stays. No place is free where the items are a power of two, 1 too. Then
   put the item behind the table, and build the tree over it: of twice the places, so of recon_tree_bytes(times_len + 1) bytes. (A table of
   RECON_MAX_ITEMS takes no more.) */
uint64_t recon_tree_append(const uint64_t *times, size_t times_len, const uint8_t *ids, size_t ids_len, uint64_t time, const uint8_t *id,
                           size_t id_len, uint8_t *tree, size_t tree_len);

/* The label of the places from `from` to below `to`. The run is cut to the places that the tree has, so SIZE_MAX as `to` is their end; an
   empty or reversed run has the empty label, all 0. The label of all places is visited first, and of each visited label the two halves, unless
   its places are all inside the run or all outside: at most 4 * (k + 1) labels, and the call takes time in proportion to them.
   No table is handed over, and a tree of any k is taken. One that is not from a build and appends answers by the labels stored in it, counts
   added modulo 2^64.
   Refuses by 13 (tree_len is not 40 * (2^(k+1) - 1) for any k). */
recon_tree_answer recon_tree_label(const uint8_t *tree, size_t tree_len, size_t from, size_t to);

/* Null pointers with length 0. The library's functions are proved for slices, whose pointers are not null even where they are empty. So each call
   above is also a macro that leads to an inline function, which hands over a pointer to some object where a length is 0. Arguments are evaluated
   once. `(recon_open)(..)` and `&recon_open` are the library's function itself, which wants pointers that are not null. */
static inline const uint64_t *recon_nonnull_times(const uint64_t *times, size_t len) {
    static const uint64_t none = 0;
    return len == 0 ? &none : times;
}

static inline const uint8_t *recon_nonnull_bytes(const uint8_t *bytes, size_t len) {
    static const uint8_t none = 0;
    return len == 0 ? &none : bytes;
}

/* Bytes that a call may write, and times. */
static inline uint8_t *recon_nonnull_room(uint8_t *room, size_t len) {
    static uint8_t none = 0;
    return len == 0 ? &none : room;
}

static inline uint64_t *recon_nonnull_times_room(uint64_t *room, size_t len) {
    static uint64_t none = 0;
    return len == 0 ? &none : room;
}

/* A slice's pointer and length, out of the parameters p and p_len. */
#define RECON_TIMES(p) recon_nonnull_times(p, p##_len), p##_len
#define RECON_BYTES(p) recon_nonnull_bytes(p, p##_len), p##_len
#define RECON_ROOM(p) recon_nonnull_room(p, p##_len), p##_len
#define RECON_TIMES_ROOM(p) recon_nonnull_times_room(p, p##_len), p##_len

static inline recon_session_answer recon_open_inline(const uint64_t *times, size_t times_len, const uint8_t *ids, size_t ids_len, size_t parts,
                                                     size_t limit, uint8_t *marks, size_t marks_len, const uint8_t *needed, size_t needed_len,
                                                     uint8_t *out, size_t out_len) {
    return recon_open(RECON_TIMES(times), RECON_BYTES(ids), parts, limit, RECON_ROOM(marks), RECON_BYTES(needed), RECON_ROOM(out));
}
#define recon_open(...) recon_open_inline(__VA_ARGS__)

static inline recon_answer_t recon_answer_inline(const uint64_t *times, size_t times_len, const uint8_t *ids, size_t ids_len, size_t parts,
                                                 size_t limit, const uint8_t *query, size_t query_len, uint8_t *out, size_t out_len) {
    return recon_answer(RECON_TIMES(times), RECON_BYTES(ids), parts, limit, RECON_BYTES(query), RECON_ROOM(out));
}
#define recon_answer(...) recon_answer_inline(__VA_ARGS__)

static inline recon_session_answer recon_take_inline(const uint64_t *times, size_t times_len, const uint8_t *ids, size_t ids_len, size_t parts,
                                                     size_t limit, const uint8_t *reply, size_t reply_len, recon_session session,
                                                     uint8_t *marks, size_t marks_len, uint8_t *needed, size_t needed_len, uint8_t *out,
                                                     size_t out_len) {
    return recon_take(RECON_TIMES(times), RECON_BYTES(ids), parts, limit, RECON_BYTES(reply), session, RECON_ROOM(marks), RECON_ROOM(needed),
                      RECON_ROOM(out));
}
#define recon_take(...) recon_take_inline(__VA_ARGS__)

static inline recon_session_answer recon_open_within_inline(const uint64_t *times, size_t times_len, const uint8_t *ids, size_t ids_len,
                                                            size_t parts, size_t limit, size_t bytes, uint8_t *marks, size_t marks_len,
                                                            const uint8_t *needed, size_t needed_len, uint8_t *out, size_t out_len) {
    return recon_open_within(RECON_TIMES(times), RECON_BYTES(ids), parts, limit, bytes, RECON_ROOM(marks), RECON_BYTES(needed),
                             RECON_ROOM(out));
}
#define recon_open_within(...) recon_open_within_inline(__VA_ARGS__)

static inline recon_answer_t recon_answer_within_inline(const uint64_t *times, size_t times_len, const uint8_t *ids, size_t ids_len,
                                                        size_t parts, size_t limit, size_t bytes, const uint8_t *query, size_t query_len,
                                                        uint8_t *out, size_t out_len) {
    return recon_answer_within(RECON_TIMES(times), RECON_BYTES(ids), parts, limit, bytes, RECON_BYTES(query), RECON_ROOM(out));
}
#define recon_answer_within(...) recon_answer_within_inline(__VA_ARGS__)

static inline recon_session_answer recon_take_within_inline(const uint64_t *times, size_t times_len, const uint8_t *ids, size_t ids_len,
                                                            size_t parts, size_t limit, size_t bytes, const uint8_t *reply, size_t reply_len,
                                                            recon_session session, uint8_t *marks, size_t marks_len, uint8_t *needed,
                                                            size_t needed_len, uint8_t *out, size_t out_len) {
    return recon_take_within(RECON_TIMES(times), RECON_BYTES(ids), parts, limit, bytes, RECON_BYTES(reply), session, RECON_ROOM(marks),
                             RECON_ROOM(needed), RECON_ROOM(out));
}
#define recon_take_within(...) recon_take_within_inline(__VA_ARGS__)

static inline recon_session_answer recon_session_convert_inline(const uint64_t *times, size_t times_len, const uint8_t *ids, size_t ids_len,
                                                                recon_unlabelled_session session, const uint8_t *marks, size_t marks_len,
                                                                const uint8_t *needed, size_t needed_len) {
    return recon_session_convert(RECON_TIMES(times), RECON_BYTES(ids), session, RECON_BYTES(marks), RECON_BYTES(needed));
}
#define recon_session_convert(...) recon_session_convert_inline(__VA_ARGS__)

static inline recon_inquiry recon_fold_inquire_inline(const uint64_t *times, size_t times_len, const uint8_t *ids, size_t ids_len, size_t items,
                                                      recon_session session, const uint8_t *needed, size_t needed_len,
                                                      const uint64_t *batch_times, size_t batch_times_len, const uint8_t *batch_ids,
                                                      size_t batch_ids_len) {
    return recon_fold_inquire(RECON_TIMES(times), RECON_BYTES(ids), items, session, RECON_BYTES(needed), RECON_TIMES(batch_times),
                              RECON_BYTES(batch_ids));
}
#define recon_fold_inquire(...) recon_fold_inquire_inline(__VA_ARGS__)

static inline recon_commit recon_fold_commit_inline(uint64_t *times, size_t times_len, uint8_t *ids, size_t ids_len, size_t items,
                                                    recon_session session, uint8_t *needed, size_t needed_len, const uint64_t *batch_times,
                                                    size_t batch_times_len, const uint8_t *batch_ids, size_t batch_ids_len) {
    return recon_fold_commit(RECON_TIMES_ROOM(times), RECON_ROOM(ids), items, session, RECON_ROOM(needed), RECON_TIMES(batch_times),
                             RECON_BYTES(batch_ids));
}
#define recon_fold_commit(...) recon_fold_commit_inline(__VA_ARGS__)

static inline uint64_t recon_fingerprint_inline(const uint64_t *times, size_t times_len, const uint8_t *ids, size_t ids_len,
                                                bool lower_infinite, uint64_t lower_time, const uint8_t *lower_prefix,
                                                size_t lower_prefix_len, bool upper_infinite, uint64_t upper_time,
                                                const uint8_t *upper_prefix, size_t upper_prefix_len, uint8_t out[16]) {
    return recon_fingerprint(RECON_TIMES(times), RECON_BYTES(ids), lower_infinite, lower_time, RECON_BYTES(lower_prefix), upper_infinite,
                             upper_time, RECON_BYTES(upper_prefix), out);
}
#define recon_fingerprint(...) recon_fingerprint_inline(__VA_ARGS__)

static inline recon_judgement recon_judge_inline(const uint64_t *times, size_t times_len, const uint8_t *ids, size_t ids_len, const uint8_t *query,
                                                 size_t query_len, const uint8_t *reply, size_t reply_len) {
    return recon_judge(RECON_TIMES(times), RECON_BYTES(ids), RECON_BYTES(query), RECON_BYTES(reply));
}
#define recon_judge(...) recon_judge_inline(__VA_ARGS__)

static inline void recon_sha256_inline(const uint8_t *m, size_t m_len, uint8_t out[32]) { recon_sha256(RECON_BYTES(m), out); }
#define recon_sha256(...) recon_sha256_inline(__VA_ARGS__)

static inline uint64_t recon_tree_build_inline(const uint64_t *times, size_t times_len, const uint8_t *ids, size_t ids_len, uint8_t *tree,
                                               size_t tree_len) {
    return recon_tree_build(RECON_TIMES(times), RECON_BYTES(ids), RECON_ROOM(tree));
}
#define recon_tree_build(...) recon_tree_build_inline(__VA_ARGS__)

static inline uint64_t recon_tree_append_inline(const uint64_t *times, size_t times_len, const uint8_t *ids, size_t ids_len, uint64_t time,
                                                const uint8_t *id, size_t id_len, uint8_t *tree, size_t tree_len) {
    return recon_tree_append(RECON_TIMES(times), RECON_BYTES(ids), time, RECON_BYTES(id), RECON_ROOM(tree));
}
#define recon_tree_append(...) recon_tree_append_inline(__VA_ARGS__)

static inline recon_tree_answer recon_tree_label_inline(const uint8_t *tree, size_t tree_len, size_t from, size_t to) {
    return recon_tree_label(RECON_BYTES(tree), from, to);
}
#define recon_tree_label(...) recon_tree_label_inline(__VA_ARGS__)

#undef RECON_TIMES
#undef RECON_BYTES
#undef RECON_ROOM
#undef RECON_TIMES_ROOM

#ifdef __cplusplus
}
#endif

#endif
