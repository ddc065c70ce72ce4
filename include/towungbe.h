/*
 * Towungbe: a record nucleus of users, holds and transactions, for C and C++.
 *
 * tools/staticlib makes target/staticlib/libtowungbe.a. Link it, include this file, and:
 *
 *   1. Ask towungbe_store_size and towungbe_image_size how long the buffers must be, and get them.
 *   2. Call towungbe_set_up once.
 *   3. Call towungbe_call for each call of a user.
 *   4. Where a whole record is wanted as ended transactions left it, ask towungbe_committed_place where it lies.
 *
 * The library allocates nothing, keeps nothing of its own and calls nothing but memcpy and memset: all that it knows is in
 * the state and in the three buffers that you lend to each call: store, hold queue and images. Give it the same ones each
 * time. To save a nucleus, save these four; to have two, have two of each.
 *
 * Document 01 says what each call does. That the library does it, for every state, every buffer and every list of calls,
 * is proved: whatever stands in the arguments, each function answers, and touches no byte and no entry past the sizes
 * below. The proof is about a caller who keeps the language's rules. It does not see what only C allows:
 *
 *   - A null pointer, or one that does not point to as many bytes or entries as the length beside it says, or that is not
 *     aligned for its type. A length may be 0; its pointer must then still not be null.
 *   - Buffers that overlap each other, the state or the block. Buffers that are only read (table, format) may be the same,
 *     but may not overlap one that is written.
 *   - Two threads in calls with the same state or buffers at once. Use a lock. Threads with a nucleus each need none, and
 *     towungbe_committed_place, which only reads, needs one only against calls; hold it as long as you read the record.
 *   - A bool that is neither 0 nor 1 (by memcpy, a union, or a file that was read into the state or the queue).
 *   - Too little stack. A call takes some 59,000 bytes of it, 64,000 where it backs users out; let a thread have 64
 *     kilobytes or more.
 *
 * In these cases anything may happen, as with any C function. Everything else is answered: a state that nobody set up or
 * that was damaged gets 12, also where a field has an unknown format or option number, and short buffers get 11.
 */
#ifndef TOWUNGBE_H
#define TOWUNGBE_H

#include <stdbool.h>
#include <stddef.h>
#include <stdint.h>

#ifdef __cplusplus
extern "C" {
#endif

/* Limits. */
enum {
    TOWUNGBE_USERS = 32,         /* users are 1 to 32 */
    TOWUNGBE_FILES = 16,         /* files of a table; their numbers are 1 to 16 */
    TOWUNGBE_FIELDS = 16,        /* fields of a file */
    TOWUNGBE_ET_DATA = 64,       /* bytes of ET data that are kept for a user */
    TOWUNGBE_MAX_CAPACITY = 256  /* entries of the hold queue; at least 1 */
};

/*
 * Responses. A call answers the first that applies, in the order of the documents' table, which is not the order of the
 * numbers. All but 0 come with ISN, quantity and sequence 0.
 */
enum {
    TOWUNGBE_GOOD = 0,              /* the call did what it was asked to */
    TOWUNGBE_NONE_FOUND = 3,        /* option I finds no record at the given ISN or above it */
    TOWUNGBE_BACKED_OUT = 9,        /* the user's transaction was backed out: it took too long, or OP or CL came before its end */
    TOWUNGBE_TABLE_INVALID = 10,    /* the definition table breaks a rule; from set-up only */
    TOWUNGBE_TOO_SHORT = 11,        /* a lent buffer is too short, or the capacity is not 1 to 256 */
    TOWUNGBE_NOT_WELL_MADE = 12,    /* the kept state is not well made: no set-up and no call leaves such a state */
    TOWUNGBE_FILE_UNDEFINED = 17,   /* the file is not defined */
    TOWUNGBE_WAITING = 20,          /* another user holds the ISN, and the user waits for it in line: see 'Waiting' below */
    TOWUNGBE_COMMAND_UNKNOWN = 22,  /* the command is unknown, or the option is none of this command's */
    TOWUNGBE_ACCESS_ONLY = 29,      /* the user is access-only: he may call OP, CL, L1 and RE only */
    TOWUNGBE_FORMAT_INVALID = 41,   /* the format buffer is neither NAME,NAME. nor . alone, or names a field that the file does not have */
    TOWUNGBE_FIELD_TWICE = 44,      /* A1, N1 or N2 names a field twice */
    TOWUNGBE_HOLD_LIMIT = 47,       /* a new hold is needed, and the user has as many as his hold limit allows */
    TOWUNGBE_RECORD_BUFFER = 53,    /* the record buffer is shorter than what is named or read, or ET brings over 64 bytes */
    TOWUNGBE_VALUE_INVALID = 55,    /* a value has a digit or a sign that its format does not allow */
    TOWUNGBE_QUEUE_FULL = 70,       /* a new hold is needed, and the hold queue is full */
    TOWUNGBE_USER_INVALID = 72,     /* the user is not 1 to 32 */
    TOWUNGBE_NO_FREE_ISN = 75,      /* N1 finds no ISN without a record and without a holder */
    TOWUNGBE_ISN_INVALID = 113,     /* the ISN is 0 or above the highest, or has no record (L1 with C: ended transactions left none; N2: has one already) */
    TOWUNGBE_NOT_HELD = 144,        /* the user does not hold the ISN */
    TOWUNGBE_HELD_BY_ANOTHER = 145, /* another user holds the ISN (HI or L4 with W: and the user may hold no more) */
    TOWUNGBE_CHANGED = 146,         /* RI of a record that the user has changed: ET or BT ends the transaction */
    TOWUNGBE_VALUE_TAKEN = 198,     /* a unique value is taken, by a record or by what another user may still turn back to */
    TOWUNGBE_TRANSACTION_READY = 211, /* PE has set the user's transaction ready: ET or BT must end it first */
    TOWUNGBE_NO_TRANSACTION = 212   /* PE without an open transaction */
};

/*
 * An entry of the hold queue: who holds which ISN. The first state.entries are in use, oldest first; those behind them may
 * have anything.
 */
typedef struct {
    uint8_t user;  /* 1 to 32 */
    uint8_t file;  /* the file's number */
    uint16_t isn;
    bool changed;  /* the user has changed the record; its image is what it was before, if it existed */
    bool existed;  /* there was a record before */
} towungbe_entry;

/*
 * A field of a file, as the table defines it. A field with an unknown format or option number makes the state one that is
 * not well made. Places behind a count, of fields or of files, are not looked at and may have anything.
 */
typedef struct {
    uint8_t first, second; /* the two characters of its name */
    uint8_t length;        /* in bytes */
    uint8_t format;        /* 0 A, bytes; 1 B, binary; 2 U, digits; 3 P, packed */
    uint8_t option;        /* 0 plain; 1 D, descriptor; 2 U, unique descriptor */
} towungbe_field;

typedef struct {
    uint8_t number;    /* 1 to 16 */
    uint8_t count;     /* how many fields it has */
    uint16_t max_isn;  /* its highest ISN, 1 to 4095 */
    towungbe_field fields[TOWUNGBE_FIELDS];
} towungbe_file;

typedef struct {
    uint32_t begun; /* the clock at which it began */
    bool active;
    bool ready;     /* PE set it ready: it waits for ET or BT. true where active is false is not well made */
} towungbe_transaction;

/* A user. What belongs to no session, or to no transaction, means nothing; but nobody is ready without a transaction. */
typedef struct {
    uint32_t sequence;                /* how many transactions of this session he has ended by ET */
    towungbe_transaction transaction;
    uint16_t hold_limit;              /* how many ISNs he may hold */
    uint16_t time_limit;              /* how many seconds a transaction of his may take */
    bool session;
    bool access_only;
    bool overdue;                     /* he was backed out because of the time limit: his next call is answered 9 */
} towungbe_user;

/* What a user's last ET with a record buffer left for him. */
typedef struct {
    uint8_t length; /* at most 64; 0 for none */
    uint8_t bytes[TOWUNGBE_ET_DATA];
} towungbe_et_data;

/*
 * Waiting. HI and L4 with option 'W', where they would get 145, put the user into the record's line and get 20. Then:
 *
 *   - The same call again (command, option, file and ISN; the rest may differ) keeps his place. It gets 20 while he waits,
 *     and 0 when he has the hold. How often he asks does not matter.
 *   - Any other call of his leaves the line, whatever it gets; but for 11, 12, 22 and 72.
 *   - When the holder lets go (by RI, ET or BT, or because he is backed out), the first in line gets the hold in that same
 *     call, and a transaction, where he has none open. From then on his time limit runs, though nobody has told him: he must
 *     ask before it ends. If he does not, he is backed out, and the next in line gets the hold.
 *   - Nobody passes him: with k users before him he has had the hold when the record was let go k + 1 times, unless he has
 *     left the line or was backed out.
 *
 * A user waits for one record at a time. Users may wait for each other in a ring; it ends when one of them makes another
 * call, or is backed out.
 *
 * All lines are kept as one, in the order of joining; the line of a record is those who wait for it. The first `waiting`
 * places are in use, and those behind them may have anything. towungbe_waiter_at says who is at a place.
 */
typedef struct {
    uint64_t places[TOWUNGBE_USERS]; /* user, file * 256, ISN * 65536, and 4294967296 for L4; bits above are not looked at */
    size_t waiting;                  /* how many wait, 0 to 32 */
} towungbe_wait_queue;

/* Who waits for which ISN, which another user holds. */
typedef struct {
    uint8_t user;  /* 1 to 32 */
    uint8_t file;  /* the file's number */
    uint16_t isn;
    bool reads;    /* by L4; otherwise by HI */
} towungbe_waiter;

/*
 * What is kept between calls, beside the buffers. Read it as you like; towungbe_set_up and towungbe_call write it. A change
 * of your own is answered 12 where it is not well made, and otherwise believed.
 */
typedef struct {
    uint8_t count;                             /* how many files the table has */
    towungbe_file files[TOWUNGBE_FILES];       /* in table order */
    uint32_t clock;                            /* the greatest that a call has brought */
    towungbe_user users[TOWUNGBE_USERS];       /* user 1 first */
    towungbe_et_data et_data[TOWUNGBE_USERS];  /* user 1 first */
    uint16_t last_assigned[TOWUNGBE_FILES];    /* the ISN that N1 last gave, by the file's place in the table; 0 at first */
    size_t entries;                            /* how many entries of the hold queue are in use */
    towungbe_wait_queue wait_queue;            /* who waits */
} towungbe_state;

/* Who waits at place i, counted from 0, the longest first. i must be less than state->wait_queue.waiting. */
static inline towungbe_waiter towungbe_waiter_at(const towungbe_state *state, size_t i)
{
    uint64_t place = state->wait_queue.places[i];
    towungbe_waiter waiter;
    waiter.user = (uint8_t)place;
    waiter.file = (uint8_t)(place >> 8);
    waiter.isn = (uint16_t)(place >> 16);
    waiter.reads = (place >> 32 & 1) != 0;
    return waiter;
}

/* A call: you fill in the first part; the call fills in the second, whatever its response, and leaves the first. */
typedef struct {
    uint8_t command[2]; /* "HI", "RI", "L1", "L4", "A1", "E1", "N1", "N2", "ET", "BT", "RE", "OP", "CL" or "PE"; no zero byte after */
    uint8_t option;     /* ' ', or 'I' (L1, L4), 'C' (L1), 'W' (HI, L4), 'H' (A1, E1), 'A' (OP); 0 is no option */
    uint8_t user;       /* 1 to 32 */
    uint8_t file;       /* the file's number */
    uint16_t isn;       /* the record's number in its file; for OP the hold limit, 0 for 64 */
    uint16_t limit;     /* for OP the time limit in seconds, 0 for 900 */
    uint32_t clock;     /* the time in seconds; an earlier one than before counts as the one before */

    uint16_t response;     /* one of the responses above */
    uint16_t answered_isn; /* the ISN read, held, changed, emptied, added or released; otherwise 0 */
    uint32_t sequence;     /* ET and CL: the user's sequence; otherwise 0 */
    size_t quantity;       /* L1, L4, RE: bytes written; RI, ET, BT: entries removed; otherwise 0 */
} towungbe_block;

/*
 * How many bytes the store of this table needs: each ISN of each file has one byte and the file's fields. 0 for a table
 * that set-up answers with 10.
 */
size_t towungbe_store_size(const uint8_t *table, size_t table_length);

/*
 * How many bytes the images need for this table and capacity: for each entry the longest file's fields. 0 for a table that
 * set-up answers with 10, or a capacity that is not 1 to 256.
 */
size_t towungbe_image_size(const uint8_t *table, size_t table_length, size_t capacity);

/*
 * Makes a fresh nucleus. Gives 0, 10 (table) or 11 (buffers or capacity).
 *
 * After 0 every file is empty, no user has a session, nothing is held and nobody waits. In the store the first byte of each
 * ISN is 0 and every other byte is as it was; queue and images are only measured. After 10 or 11 the buffers are as they
 * were, and nothing is set up: calls on the state get 12.
 *
 *   state     where to keep the nucleus; it need not be initialised
 *   capacity  how many entries the hold queue may have, 1 to 256
 *   table     the definition table: items of one byte of kind and then
 *               1, a file: number, highest ISN (two bytes, the high one first)
 *               2, a field of the last file: name (2), length, format (A, B, U, P), option (blank, D, U)
 *               0, the end
 *   store     at least towungbe_store_size bytes
 *   queue     at least capacity entries
 *   images    at least towungbe_image_size bytes
 */
uint32_t towungbe_set_up(towungbe_state *state, size_t capacity,
                         const uint8_t *table, size_t table_length,
                         uint8_t *store, size_t store_length,
                         const towungbe_entry *queue, size_t queue_length,
                         const uint8_t *images, size_t images_length);

/*
 * Makes one call. Gives the response, which is in the block too.
 *
 *   state, capacity, store, queue, images
 *             as at set-up. Bytes of the store and of the images, and entries, past the sizes above are never touched.
 *   format    L1, L4, A1, N1, N2: the fields, as in "RC,HH."; no zero byte counts. Not looked at by other commands.
 *             "." alone names none: L4 holds a record for its check only, N1 and N2 add a record of nulls.
 *   record    the record buffer. A1, N1, N2: the values of the named fields, one after another; longer is good.
 *             L1, L4: they are written here, at the front; it must have room. RE: the ET data, the same.
 *             ET: 1 to 64 bytes to keep as ET data, or none. Bytes past the quantity keep their values.
 */
uint32_t towungbe_call(towungbe_state *state, towungbe_block *block, size_t capacity,
                       uint8_t *store, size_t store_length,
                       towungbe_entry *queue, size_t queue_length,
                       uint8_t *images, size_t images_length,
                       const uint8_t *format, size_t format_length,
                       uint8_t *record, size_t record_length);

/*
 * Where a whole record lies, as ended transactions left it. A record that somebody has changed and not ended lies in the
 * images, every other one in the store.
 */
typedef struct {
    size_t start;  /* its first byte in the images or in the store */
    size_t length; /* the file's fields together; 0 where there is no record, and then all is 0 */
    bool imaged;   /* it lies in the images */
} towungbe_place;

/*
 * Says where the record lies that L1 with option 'C' reads, so that it can be had without a copy. It is no call: it has no
 * user and no clock, backs nobody out and changes nothing but *place.
 *
 * The length is 0 where 'C' would be answered 11, 12, 17 or 113: short buffers, a state that is not well made, a file that
 * is not defined, an ISN that is 0 or above the highest, and no record: none in the store, or one that was added by a
 * transaction that has not ended. The place is good until the next call on the nucleus: any call may change or move the
 * bytes, whatever it answers.
 *
 *   state, capacity, store, queue, images
 *             as for calls
 *   file, isn the file's number and the record's in it
 *   place     where to put the answer. What it has is not looked at, but begin with {0, 0, false}: a bool that is lent is one.
 */
void towungbe_committed_place(const towungbe_state *state, size_t capacity, uint8_t file, uint16_t isn,
                              const uint8_t *store, size_t store_length,
                              const towungbe_entry *queue, size_t queue_length,
                              const uint8_t *images, size_t images_length,
                              towungbe_place *place);

/*
 * The record at a place of these buffers: place->length bytes, the fields in the order of the table. The pointer is never
 * null; where there is no record it points to no bytes.
 */
static inline const uint8_t *towungbe_record_at(const towungbe_place *place, const uint8_t *store, const uint8_t *images)
{
    return (place->imaged ? images : store) + place->start;
}

#ifdef __cplusplus
}
#endif

#endif
