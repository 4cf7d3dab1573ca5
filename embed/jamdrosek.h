/*
 * Jamdrosek for C: Cap'n Proto streams, connections of two-party RPC, and a relay, by code that is proved. docs/EMBEDDING.md says how to
 * link it.
 *
 * WHAT C OWES
 *
 * Nothing checks C, so the proofs hold only for a program that keeps to this:
 *
 * - A handle (`struct jd_reader`, `struct jd_connection`, `struct jd_relay`) is all zeros, or what an earlier call left in it. It isn't
 *   copied, and C reads and writes none of its fields.
 * - A handle is in one call at a time, and all of its calls are on one thread. Two handles share nothing.
 * - A pointer with a length leads to that much memory, which nobody writes during the call. At a length of 0 any pointer
 *   will do, null too. Other pointers are never null, and lead to a value of their type. (A program that calls the library
 *   without this header gives no null at a length of 0: the macros at its end see to that.)
 * - The arguments of a call don't overlap, where the call writes one of them.
 * - malloc, realloc and free are of one allocator, and align as the C library's do.
 * - No call is made in a signal handler, nor in the forked child of a process with threads.
 *
 * WHAT A CALL ANSWERS
 *
 * A call that answers a `uint32_t` answers the number of a fault, or JD_OK. What it leaves at a fault is said with it. A
 * call with a closed handle does nothing and answers JD_CLOSED. `jd_text` has the line of a fault.
 *
 * Each result that goes out by a pointer is written by every call, at a fault too: numbers are 0 then.
 *
 * BYTES THAT ARE LENT
 *
 * `struct jd_bytes` says where bytes lie that a handle lends. They stay there until the next call with that handle.
 */
#ifndef JAMDROSEK_H
#define JAMDROSEK_H

#include <stdbool.h>
#include <stddef.h>
#include <stdint.h>

#ifdef __cplusplus
extern "C" {
#endif

/* The numbers of faults. */
enum {
    JD_OK = 0,
    JD_CLOSED = 1,           /* The handle is closed. */
    JD_LIMITS = 2,           /* A limit is out of its range. */
    JD_NO_FRAME = 3,         /* No frame has come since the last call that takes bytes. */
    JD_ARGUMENT = 4,         /* A kind, a path or a text that the call was given is none, or bytes follow its frame. */
    JD_NO_CONTENT = 5,       /* The event has no such part. */
    JD_ENDED = 6,            /* The connection is closed, as the event JD_CLOSING said. */
    JD_FORBIDDEN = 7,        /* A rule of the relay forbids a message. */
    /* Of a stream. */
    JD_TOO_MANY_SEGMENTS = 101, /* F1: a frame has more segments than the limit. */
    JD_FRAME_TOO_LARGE = 102,   /* F2: a frame has more words than the limit. */
    JD_TRUNCATED = 103,         /* F3: the stream ends inside a frame. */
    JD_RUN_PAST_FRAME = 104,    /* F4: a run of the packed form goes past the end of its frame. */
    JD_FAILED = 105,            /* F5: a fault was reported before. */
    JD_OUT_OF_MEMORY = 106,     /* F6: memory ran out. */
    /* Of what a frame holds, with the pointer word that is to blame. */
    JD_NO_ROOT = 201,         /* G1: there is no root pointer, or it is null. */
    JD_ROOT_KIND = 202,       /* G2: the root isn't a struct. */
    JD_OUT_OF_BOUNDS = 203,   /* G3: a body or a landing pad isn't wholly inside its segment. */
    JD_NO_SEGMENT = 204,      /* G4: a far pointer names a segment that doesn't exist. */
    JD_BAD_PAD = 205,         /* G5: a landing pad hasn't the form of one. */
    JD_BAD_TAG = 206,         /* G6: the tag of a composite list isn't a struct pointer. */
    JD_BAD_CAPABILITY = 207,  /* G7: a capability pointer has one of bits 2 to 31 set. */
    JD_NESTING_LIMIT = 208,   /* G8: structs and lists nest deeper than the limit. */
    JD_TRAVERSAL_LIMIT = 209, /* G9: the tree costs more than the limit. */
    JD_TREE_MEMORY = 210,     /* G10: memory ran out. */
    /* Of a message of rpc.capnp, with the field that is to blame. */
    JD_WRONG_KIND = 301,     /* S1: a field holds a pointer of another kind. */
    JD_WRONG_TEXT = 302,     /* S2: a text isn't UTF-8 that ends in a zero byte. */
    JD_MESSAGE_MEMORY = 303, /* S3: memory ran out. */
    /* Of what is to be written. */
    JD_TOO_DEEP = 401,      /* B1: structs and lists nest deeper than the limit. */
    JD_TOO_COSTLY = 402,    /* B2: the tree costs more than the limit, or a list is too long. */
    JD_WRITE_MEMORY = 403,  /* B3: memory ran out. */
    JD_TOO_MANY_WORDS = 404, /* B4: the segments have more words than the limit. */
    /* Of a call of a connection, which is refused and changes nothing; but JD_VAT_MEMORY ends the connection. */
    JD_UNKNOWN_QUESTION = 501, /* V1: no question of this end's, or a finished one; or a call that wasn't delivered, or was answered. */
    JD_UNKNOWN_PROMISE = 502,  /* V2: no promise, or one that this end didn't make. */
    JD_ALREADY_RESOLVED = 503, /* V3: the promise was resolved before. */
    JD_PROMISE_CYCLE = 504,    /* V4: the value leads back to its own promise. */
    JD_UNSETTLED = 505,        /* V5: an open promise, or a pipelined capability where none is allowed. */
    JD_IN_USE = 506,           /* V6: the question, import or promise is in use. */
    JD_TOO_LARGE = 507,        /* V7: a content, a table, a path or a text is past the limits. */
    JD_FULL = 508,             /* V8: what the call opens doesn't fit. */
    JD_VAT_CLOSED = 509,       /* V9: the vat is closed. */
    JD_VAT_MEMORY = 510,       /* V10: memory ran out. */
    JD_UNKNOWN_IMPORT = 511,   /* V11: no import. */
    /* Of a message's canonical form. */
    JD_CAPABILITY = 601, /* C1: the message holds a capability. */
    JD_DIFFERENCE = 602  /* C2: the words aren't those of the canonical form. */
};

/*
 * What is to blame: of G1 to G9 a pointer word, and of C2 the first other word, by its segment and its number there, each from 0
 * on; in `field` of S1 and S2 the number of a field, from 1 on, which `jd_text` names, and of C1 the capability's index. All else
 * is 0.
 */
struct jd_spot {
    size_t segment;
    size_t word;
    uint32_t field;
};

/* Where bytes lie that a handle lends. */
struct jd_bytes {
    const uint8_t *at;
    size_t len;
};

/*
 * What a message may ask for at most: levels of nesting (1 to 256), words of traversal (1 to 67,108,864), segments of a
 * frame (1 to 512), and words of all its segments together (the traversal to 67,108,864).
 */
struct jd_limits {
    uint32_t nesting;
    uint32_t traversal;
    uint32_t segments;
    uint32_t frame_words;
};

/* The standard limits, as `struct jd_limits limits = JD_STANDARD_LIMITS;`. */
#define JD_STANDARD_LIMITS { 64, 8388608, 512, 8388608 }

/* Room for the text of each fault, with its zero byte. */
#define JD_TEXT 256

/*
 * Puts the line that says what a fault is, and what it means, into `out`, as much as fits of it and of the zero byte after
 * it. Gives the length of the line: 0 where the number is no fault's, or memory runs out, and then `out` is as it was.
 */
size_t jd_text(uint32_t code, const struct jd_spot *spot, char *out, size_t room);

/* ---- A reader: the frames of a stream, as it comes in pieces ---- */

/* All zeros at first: `struct jd_reader reader = {0};`. */
struct jd_reader {
    void *at;
    bool is_open;
};

/* How many bytes of a piece were taken, and whether a frame is there. */
struct jd_step {
    size_t taken;
    bool has_frame;
};

/*
 * A message of rpc.capnp: the number of the member of `struct Message` (0 unimplemented, 1 abort, 2 call, 3 return, 4 finish,
 * 5 resolve, 6 release, 8 bootstrap, 13 disembargo, others as they are), and numbers, each 0 where the kind has none.
 */
struct jd_message {
    uint32_t kind;
    uint32_t id;        /* call, bootstrap, finish: the question; return: the answer; resolve: the promise; release: the import; */
                        /* disembargo that loops back: the embargo */
    uint64_t interface; /* call */
    uint16_t method;    /* call */
    bool releases;      /* return: releaseParamCaps; finish: releaseResultCaps */
    uint32_t count;     /* release: referenceCount */
};

/*
 * Opens a reader of a stream in the packed form or the plain one, of which nothing has come. A reader that the handle had is
 * let go.
 *   JD_LIMITS, JD_OUT_OF_MEMORY: the handle is as it was.
 */
uint32_t jd_reader_open(struct jd_reader *reader, bool packed, const struct jd_limits *limits);

/*
 * Takes bytes of the stream, in whatever pieces it comes, up to the end of the next frame, and says how many. Give it the rest
 * then, until it has taken all. The frame that was there before, and what was lent, is let go.
 *   JD_TOO_MANY_SEGMENTS, JD_FRAME_TOO_LARGE, JD_RUN_PAST_FRAME: the stream has this fault, with the byte that shows it.
 *   JD_OUT_OF_MEMORY. After any of these each call answers JD_FAILED; no frame is there, and nothing was taken.
 */
uint32_t jd_reader_next(struct jd_reader *reader, const uint8_t *piece, size_t len, struct jd_step *step);

/*
 * Ends the stream. JD_OK says that it ended after a frame; it may go on then.
 *   JD_TRUNCATED: it ended inside a frame. JD_FAILED: a fault was reported before.
 */
uint32_t jd_reader_end(struct jd_reader *reader);

/*
 * How many bytes the open frame, or else the next one, still needs at the least. A program that takes no more than that from
 * its source takes none after the frame. 0 where a fault was reported, or the handle is closed.
 */
size_t jd_reader_needs(struct jd_reader *reader);

/*
 * The kind and the numbers of the message of rpc.capnp that the frame holds. The whole message is checked.
 *   JD_NO_FRAME. G1 to G9, S1, S2: the frame holds no message, and `spot` is to blame.
 */
uint32_t jd_reader_message(struct jd_reader *reader, struct jd_message *message, struct jd_spot *spot);

/*
 * Checks that the frame holds a struct of some schema: all that its root leads to is gone over, within the limits.
 *   JD_NO_FRAME. G1 to G9: the first fault in reading order, and `spot` is to blame.
 */
uint32_t jd_reader_check(struct jd_reader *reader, struct jd_spot *spot);

/*
 * Lends the bytes of the frame in the plain form, which any Cap'n Proto library reads, or the packed one. The segments are those
 * that came.
 *   JD_NO_FRAME, JD_OUT_OF_MEMORY: nothing is lent.
 */
uint32_t jd_reader_write(struct jd_reader *reader, bool packed, struct jd_bytes *bytes);

/*
 * Lends the bytes of a frame of the same struct, laid anew in segments of at most `words` words, but for objects that are longer:
 * what no pointer leads to stays behind. At 0 it is as at 1.
 *   JD_NO_FRAME. G1 to G10 as by `jd_reader_check`, F1, F2, F6, B1 to B4: nothing is lent.
 */
uint32_t jd_reader_recut(struct jd_reader *reader, bool packed, uint32_t words, struct jd_bytes *bytes, struct jd_spot *spot);

/*
 * Lends the message that the frame holds in its canonical form, as a frame of one segment. The segment, which one signs and
 * hashes, is all after the first 8 bytes of the plain form.
 *   JD_NO_FRAME. G1 to G9 as by `jd_reader_check`, F1, F2, F6, B3, C1: nothing is lent.
 */
uint32_t jd_reader_canonical(struct jd_reader *reader, bool packed, struct jd_bytes *bytes, struct jd_spot *spot);

/*
 * Checks that the message which the frame holds is in its canonical form, in one segment.
 *   JD_NO_FRAME. G1 to G9 as by `jd_reader_check`, B3, C1, C2, and `spot` is to blame.
 */
uint32_t jd_reader_check_canonical(struct jd_reader *reader, struct jd_spot *spot);

/* Copies what is lent, from the byte `from` on, as much as fits, and gives how much. */
size_t jd_reader_copy(struct jd_reader *reader, size_t from, uint8_t *out, size_t room);

/* Lets go of the reader, if there is one. The handle is closed then. */
void jd_reader_close(struct jd_reader *reader);

/* ---- A connection: one end of two-party RPC, levels 0 and 1, without its devices ---- */

/*
 * The program drives it: it gives the bytes of the peer, takes what happens, and writes what is to go out.
 *
 *   1. jd_connection_open, for a new connection to a peer.
 *   2. jd_connection_receive with bytes of the peer as they come, until it has taken all; jd_connection_end where they end.
 *   3. After each of these, and after each call below, jd_connection_next until nothing happened; do what each event asks.
 *   4. jd_connection_outgoing; write these bytes to the peer before waiting for more of its own; jd_connection_wrote.
 *
 * Objects of the program are numbers that it chooses. Params and results are plain frames, whose root is the content; a capability
 * in them is the place of an entry in a table of `struct jd_cap`, which comes and goes with the frame. Tail calls of the peer are served.
 */
struct jd_connection {
    void *at;
    bool is_open;
};

/* A capability as this end names it. */
struct jd_cap {
    uint32_t kind;     /* one of the following */
    uint32_t number;   /* the object, the promise, the import or the question */
    size_t fields;     /* JD_CAP_PIPELINED: the length of the path, at most 16 */
    uint16_t path[16]; /* JD_CAP_PIPELINED: pointer fields from the results' root on */
};

enum {
    JD_CAP_NONE = 0,
    JD_CAP_OBJECT = 1,    /* an object of this end */
    JD_CAP_PROMISE = 2,   /* a promise of this end */
    JD_CAP_IMPORT = 3,    /* a capability of the peer */
    JD_CAP_PIPELINED = 4, /* what a question will give at a path */
    JD_CAP_BROKEN = 5     /* one whose calls fail */
};

/* Whom the answer of a call is for. It is given back as it came. */
struct jd_origin {
    bool is_own;
    uint32_t number;
};

struct jd_method {
    uint64_t interface;
    uint16_t method;
};

enum { JD_NOTHING = 0, JD_DELIVERED = 1, JD_SETTLED = 2, JD_CLOSING = 3 };
enum { JD_RESULTS = 0, JD_EXCEPTION = 1, JD_CANCELED = 2 };

/* What happened. What a kind hasn't is 0. */
struct jd_event {
    uint32_t kind;
    uint32_t object;         /* delivered: the object that is called. Answer it once, now or later, by its origin. */
    struct jd_origin origin; /* delivered */
    uint64_t ticket;         /* delivered: the call's place in the order of calls */
    uint64_t interface;      /* delivered */
    uint16_t method;         /* delivered */
    uint32_t question;       /* settled: finish it when none of its paths is needed any more */
    uint32_t outcome;        /* settled: JD_RESULTS, JD_EXCEPTION, JD_CANCELED; closing: 0 the peer aborted, else n of its fault Pn */
    uint32_t exception;      /* an exception's type (rpc.capnp): 0 failed, 1 overloaded, 2 disconnected, 3 unimplemented */
    size_t caps;             /* delivered, or settled as results: the length of the table */
};

/*
 * Opens a connection whose peer's messages keep to these limits, in the packed form or the plain one. The peer's Bootstrap gets the
 * object `bootstrap`, if there is one. A connection that the handle had is let go.
 *   JD_LIMITS, JD_OUT_OF_MEMORY: the handle is as it was.
 */
uint32_t jd_connection_open(struct jd_connection *connection, bool packed, const struct jd_limits *limits, bool has_bootstrap, uint32_t bootstrap);

/*
 * Takes bytes of the peer up to the end of the next message, and says how many: one at least, where there is one.
 *   F1, F2, F4, G1 to G9, S1, S2: the peer's bytes can't be read on, and the connection has ended: each later call answers this fault.
 *   JD_VAT_MEMORY, JD_ENDED.
 */
uint32_t jd_connection_receive(struct jd_connection *connection, const uint8_t *piece, size_t len, size_t *taken);

/* Ends the bytes of the peer. This end may still call. JD_TRUNCATED: they ended inside a frame, and the connection has ended. */
uint32_t jd_connection_end(struct jd_connection *connection);

/* Lends the bytes that are to go out, in order. */
uint32_t jd_connection_outgoing(struct jd_connection *connection, struct jd_bytes *bytes);

/* Notes that the first `count` of them were written, or all where there are fewer. */
uint32_t jd_connection_wrote(struct jd_connection *connection, size_t count);

/*
 * Takes what happened first of what wasn't taken; JD_NOTHING where there is none. What the event before had is let go. Each entry of its
 * table that is an import is one hold of it, which jd_connection_release gives back.
 *   JD_OUT_OF_MEMORY: an entry couldn't be counted. The next call goes on with this event.
 */
uint32_t jd_connection_next(struct jd_connection *connection, struct jd_event *event);

/* Lends the content of the event's params or results: a plain frame whose root it is. JD_NO_CONTENT; B1 to B4, F6: nothing is lent. */
uint32_t jd_connection_content(struct jd_connection *connection, struct jd_bytes *bytes);

/* The capability at a place of the event's table. JD_NO_CONTENT: there is none. */
uint32_t jd_connection_cap(struct jd_connection *connection, size_t place, struct jd_cap *cap);

/* Lends the reason of the event's exception, or of the peer's Abort; there is no zero byte after it. JD_NO_CONTENT, JD_OUT_OF_MEMORY. */
uint32_t jd_connection_reason(struct jd_connection *connection, struct jd_bytes *bytes);

/* Asks for the peer's bootstrap capability, and gives the question's number. JD_FULL. */
uint32_t jd_connection_bootstrap(struct jd_connection *connection, uint32_t *question);

/*
 * Calls a capability with the struct of a plain frame as params (no bytes: null) and this table, and gives the question's number.
 *   F1 to F3, G1 to G10, JD_ARGUMENT: of the frame or the table. V1, V2, V7, V8, V11: the call is refused.
 */
uint32_t jd_connection_call(struct jd_connection *connection, const struct jd_cap *target, const struct jd_method *method, const uint8_t *params,
                            size_t len, const struct jd_cap *caps, size_t caps_len, uint32_t *question);

/* Answers a call that was delivered with the struct of a plain frame as results (no bytes: null) and this table. Faults as of a call. */
uint32_t jd_connection_answer(struct jd_connection *connection, const struct jd_origin *origin, const uint8_t *results, size_t len,
                              const struct jd_cap *caps, size_t caps_len);

/* Answers a call that was delivered with an exception of this type and reason. JD_ARGUMENT: the reason isn't UTF-8. V1, V7. */
uint32_t jd_connection_fail(struct jd_connection *connection, const struct jd_origin *origin, uint16_t type, const char *reason, size_t len);

/* Gives a question up. V1, V6. */
uint32_t jd_connection_finish(struct jd_connection *connection, uint32_t question);

/* Gives back one hold of an import. The last one has it released, with its whole count. V6, V11: of the last alone. */
uint32_t jd_connection_release(struct jd_connection *connection, uint32_t import);

/* Makes an open promise, and gives its number. V8. */
uint32_t jd_connection_promise(struct jd_connection *connection, uint32_t *promise);

/* Settles a promise that this end made. V1 to V5, V7, V8, V11. */
uint32_t jd_connection_resolve(struct jd_connection *connection, uint32_t promise, const struct jd_cap *value);

/* Drops a settled promise. V2, V5, V6. */
uint32_t jd_connection_forget(struct jd_connection *connection, uint32_t promise);

/*
 * Whether the connection refers to an object of this end. Once it doesn't, the peer has dropped it, and the object may go. An event that
 * wasn't taken may name it too.
 */
uint32_t jd_connection_uses(struct jd_connection *connection, uint32_t object, bool *uses);

/*
 * The fault that ended the connection, or JD_OK where it goes on; where bytes of the peer had it, also how many bytes the messages before
 * them took, and what is to blame.
 */
uint32_t jd_connection_fault(struct jd_connection *connection, uint64_t *at, struct jd_spot *spot);

/* Lets go of the connection, if there is one. Nothing is written to the peer. */
void jd_connection_close(struct jd_connection *connection);

/* ---- A relay: one direction of a connection, and which of its messages may go ---- */

/* All zeros at first. */
struct jd_relay {
    void *at;
    bool is_open;
};

/* What goes out for a message: the bytes of its frame as they came, or the same message anew in one segment. */
enum { JD_AS_READ = 0, JD_ANEW_PLAIN = 1, JD_ANEW_PACKED = 2 };

/*
 * Opens a relay of a stream in the packed form or the plain one, of which nothing has come. `methods` are the only ones that may be
 * called, or, where `only` is false, those that may not. A relay that the handle had is let go.
 *   JD_LIMITS, JD_OUT_OF_MEMORY: the handle is as it was.
 */
uint32_t jd_relay_open(struct jd_relay *relay, bool packed, uint8_t output, const struct jd_limits *limits, const struct jd_method *methods, size_t len,
                       bool only);

/*
 * Takes the next piece of the stream, all of it, and lends what goes out: the messages that end in it, each whole. All but calls go.
 *   JD_FORBIDDEN; F1, F2, F4, F6, G1 to G9, S1 to S3, B1 to B4: what came before this message goes out, and the relay has stopped. Each
 *   later call answers this fault. `at` says how many bytes of the stream went through, and `spot` what is to blame.
 */
uint32_t jd_relay_feed(struct jd_relay *relay, const uint8_t *piece, size_t len, struct jd_bytes *bytes, uint64_t *at, struct jd_spot *spot);

/* Ends the stream. JD_TRUNCATED: it ended inside a frame. */
uint32_t jd_relay_end(struct jd_relay *relay, uint64_t *at, struct jd_spot *spot);

/* Lets go of the relay, if there is one. */
void jd_relay_close(struct jd_relay *relay);

/* ---- Whole buffers ---- */

/* How many frames come before the first fault, and how many bytes they take. */
struct jd_checked {
    uint64_t frames;
    size_t bytes;
};

/* What each frame has to hold. */
enum { JD_ANY_WORDS = 0, JD_A_MESSAGE = 1, JD_A_STRUCT = 2 };

/*
 * Reads a whole stream. JD_OK says that it is frames that each hold what is asked for.
 *   JD_LIMITS: nothing was read. F1 to F4, F6, and of what a frame holds G1 to G9, S1, S2: the first fault, and what is to blame.
 */
uint32_t jd_check(const uint8_t *bytes, size_t len, bool packed, const struct jd_limits *limits, uint8_t what, struct jd_checked *checked,
                  struct jd_spot *spot);

/*
 * Packs words as one piece. Gives the number of bytes, and puts what fits of them into `out`. They are at most 10 for each word.
 *   JD_OUT_OF_MEMORY: `out` is as it was.
 */
uint32_t jd_pack(const uint64_t *words, size_t len, uint8_t *out, size_t room, size_t *count);

/*
 * Unpacks bytes into words, of which `out` has room for `room`, and gives their number.
 *   JD_FRAME_TOO_LARGE: they are more. JD_TRUNCATED: the bytes end inside a group. JD_OUT_OF_MEMORY. `out` is as it was.
 */
uint32_t jd_unpack(const uint8_t *bytes, size_t len, uint64_t *out, size_t room, size_t *count);

/* ---- Null at a length of 0: the library gets a pointer that isn't null ---- */

#define JD_SOME(type, name) \
    static inline type *name(type *at) { \
        static uint64_t nothing; \
        return at ? at : (type *)&nothing; \
    }
JD_SOME(const uint8_t, jd_some_bytes)
JD_SOME(const uint64_t, jd_some_words)
JD_SOME(const char, jd_some_text)
JD_SOME(const struct jd_cap, jd_some_caps)
JD_SOME(const struct jd_method, jd_some_methods)
JD_SOME(uint8_t, jd_room_for_bytes)
JD_SOME(uint64_t, jd_room_for_words)
JD_SOME(char, jd_room_for_text)

#define jd_text(code, spot, out, room) jd_text(code, spot, jd_room_for_text(out), room)
#define jd_reader_next(reader, piece, len, step) jd_reader_next(reader, jd_some_bytes(piece), len, step)
#define jd_reader_copy(reader, from, out, room) jd_reader_copy(reader, from, jd_room_for_bytes(out), room)
#define jd_connection_receive(connection, piece, len, taken) jd_connection_receive(connection, jd_some_bytes(piece), len, taken)
#define jd_connection_call(connection, target, method, params, len, caps, caps_len, question) \
    jd_connection_call(connection, target, method, jd_some_bytes(params), len, jd_some_caps(caps), caps_len, question)
#define jd_connection_answer(connection, origin, results, len, caps, caps_len) \
    jd_connection_answer(connection, origin, jd_some_bytes(results), len, jd_some_caps(caps), caps_len)
#define jd_connection_fail(connection, origin, type, reason, len) jd_connection_fail(connection, origin, type, jd_some_text(reason), len)
#define jd_relay_open(relay, packed, output, limits, methods, len, only) \
    jd_relay_open(relay, packed, output, limits, jd_some_methods(methods), len, only)
#define jd_relay_feed(relay, piece, len, bytes, at, spot) jd_relay_feed(relay, jd_some_bytes(piece), len, bytes, at, spot)
#define jd_check(bytes, len, packed, limits, what, checked, spot) jd_check(jd_some_bytes(bytes), len, packed, limits, what, checked, spot)
#define jd_pack(words, len, out, room, count) jd_pack(jd_some_words(words), len, jd_room_for_bytes(out), room, count)
#define jd_unpack(bytes, len, out, room, count) jd_unpack(jd_some_bytes(bytes), len, jd_room_for_words(out), room, count)

#ifdef __cplusplus
}
#endif
#endif
