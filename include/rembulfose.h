/* Rembulfose: the messages and values of a batch tracker's database (EdgeDB's binary protocol).
 *
 * What is accepted, answered and refused stands in docs/RULES.md, rule by rule; a number such as R5.3 is a rule there.
 *
 * Every call ends, stays inside its buffers, and answers for any bytes and any lengths (R1.13). A refusal returns a number
 * and a place, and 0 in every other field but an intake's state; all that was lent is as it was before (R1.1), but for an
 * intake's room (R10.7). On success number and place are 0, and of a room only the bytes that the result needs are written
 * (R1.2). No call keeps a pointer, allocates memory or has a state of its own: calls may be made from several threads at once.
 *
 * Arguments. A run of bytes is a pointer and a length. What is const is only read. A room is what a call may write to:
 * if the result needs less, the rest is not touched; if it needs more, that is a refusal (30, 31, 32) and nothing is
 * written. Lengths are always in bytes. A null pointer is good where its length is 0 (R9.2).
 *
 * The words of a plan, list or path are passed as bytes, four each, the highest first: REMBULFOSE_MOST_WORDS words at most
 * (R9.3, R9.4). A room for such words counts as its length / 4, and never as more than that (R9.6). Input messages, sources,
 * deliveries, and rooms for output or an intake may be of any size (R9.7).
 *
 * Largest sizes (R1.4): 65,535 bytes of a descriptor (17) and of a value (28); and in a descriptor (17) height 32, 1,024
 * blocks that have an index, and 512 as each count of a block.
 *
 * Stack: use does not grow with the number of elements, only with nesting, which is at most 32. It is measured and not
 * proved: give a thread that makes these calls REMBULFOSE_STACK bytes or more, of which the largest test cases used four
 * fifths in writing a value, and less in the other calls (docs/MEASURED.md has it call by call).
 *
 * Outside the promises of every call (R9.10): a null pointer with a length above 0, a pointer to fewer bytes than its length
 * says, runs of which one overlaps another, and a stack that is too small.
 */
#ifndef REMBULFOSE_H
#define REMBULFOSE_H

#include <stddef.h>
#include <stdint.h>

#ifdef __cplusplus
extern "C" {
#endif

#define REMBULFOSE_VERSION "0.1.0"

#define REMBULFOSE_STACK 262144

/* The most words of a plan, list or path, and the bytes of a room that holds as many. */
#define REMBULFOSE_MOST_WORDS 8192
#define REMBULFOSE_ROOM 32768

/* The most bytes of a value, of a descriptor, and of a message with its type byte. */
#define REMBULFOSE_MOST_VALUE 65535
#define REMBULFOSE_MOST_DESCRIPTOR 65535
#define REMBULFOSE_MOST_MESSAGE 65536

/* What a call answers. number: 0, or the refusal. place: where, if it is refused. first and second: said at each call;
 * a call that names no second leaves it 0. */
typedef struct {
    uint32_t number, place, first, second;
} rembulfose_answer;

/* An element as one number. format: REMBULFOSE_FORMAT_INT16, _INT32, _INT64, _FLOAT32, _FLOAT64, _BOOL or _MEMORY. bits:
 * an integer's two's complement in 64 bits, 0 or 1 for a bool, a float's own bits (a float32's in the low 32). */
typedef struct {
    uint32_t number, place, format;
    uint64_t bits;
} rembulfose_number;

/* The state of an intake, which joins the deliveries of one side (section 10): a struct that the host keeps and hands in
 * again. room: the length of the room that was lent at the start. side: who sends. held: bytes that wait at the room's front.
 * number and place: of the refusal that ended it, or 0. Only rembulfose_intake_start, _reset and _take make one. */
typedef struct {
    uint64_t room;
    uint32_t side, held, number, place;
} rembulfose_intake;

/* What an intake answers to a delivery. intake: the state for the next call. number: 0, or the refusal; then place says where,
 * and the numbers after it are 0. taken: bytes taken from the front of the delivery. length: of the message that is whole now
 * and stands at the front of the room, or 0. lacks: how many bytes that state lacks, of a head of 5 while it holds fewer, then
 * of the message. */
typedef struct {
    rembulfose_intake intake;
    uint32_t number, place, taken, length, lacks;
} rembulfose_delivery;

/* Refusal numbers (R1.3). Behind the semicolon stands the place. The order in which they are given is said at each call. */
enum {
    REMBULFOSE_NOT_WHOLE = 1,      /* the message needs more bytes than are there yet; 0 */
    REMBULFOSE_BAD_LENGTH = 2,     /* a message's length field is not from 4 to 65,535; 0 */
    REMBULFOSE_UNKNOWN_TYPE = 3,   /* the side (REMBULFOSE_CLIENT or _SERVER) has no such type byte; 0 */
    REMBULFOSE_FIELD_PAST_END = 4, /* a message is over before one of its fields is; start of the field */
    REMBULFOSE_BYTES_LEFT = 5,     /* a message has bytes behind its last field; the first of those */
    REMBULFOSE_BAD_FIELD = 6,      /* a message's field holds what it must not; start of the field (writer: 0) */
    REMBULFOSE_DESCRIPTOR_END = 10, /* a descriptor is over before a field is; tag of the block */
    REMBULFOSE_UNKNOWN_TAG = 11,   /* no block has this tag; the tag */
    REMBULFOSE_BAD_CONTENT = 12,   /* a block's field holds what it must not; tag of the block */
    REMBULFOSE_BAD_REFERENCE = 13, /* a reference gives no block before its own; tag of the block */
    REMBULFOSE_WRONG_KIND = 14,    /* a reference gives a block that may not stand there; tag of the block */
    REMBULFOSE_BAD_ID = 15,        /* a block's id is all zero or was used before; tag of the block */
    REMBULFOSE_NAME_TWICE = 16,    /* two elements of an input shape, or of a named tuple, have one name; tag of the block */
    REMBULFOSE_DESCRIPTOR_SIZE = 17, /* a descriptor exceeds a largest size; tag of the block (its bytes: 0) */
    REMBULFOSE_NO_ROOT = 18,       /* the root id is unusable, no block's, or of one without values; the descriptor's length */
    REMBULFOSE_CONTAINER_END = 20, /* a container is over before a head or an element's data is; its start */
    REMBULFOSE_VALUE_LEFT = 21,    /* a container has bytes behind its last element; its start */
    REMBULFOSE_BAD_HEAD = 22,      /* a head holds what it must not; start of the container */
    REMBULFOSE_BAD_SIZE = 23,      /* a negative length where it does not mean absent; start of the container */
    REMBULFOSE_BAD_SCALAR = 24,    /* a leaf's bytes break the rule of its format, or are no text; their start */
    REMBULFOSE_INDEX_OUTSIDE = 25, /* an input object's entry has an index that its shape has not; start of the object */
    REMBULFOSE_INDEX_TWICE = 26,   /* two entries of an input object have one index; start of the object */
    REMBULFOSE_REQUIRED = 27,      /* a required element is absent or missing; start of the object */
    REMBULFOSE_VALUE_SIZE = 28,    /* a value of more than 65,535 bytes; 0 */
    REMBULFOSE_PLAN_ROOM = 30,     /* the plan has more words than its room; 0 */
    REMBULFOSE_LIST_ROOM = 31,     /* the list has more words than its room; 0 */
    REMBULFOSE_OUTPUT_ROOM = 32,   /* the output, or an intake's message, is larger than its room, or that has changed; 0 */
    REMBULFOSE_BAD_PLAN = 33,      /* what was lent as a plan is none; 0 */
    REMBULFOSE_NO_VALUE = 34,      /* the supply belongs to no value that the plan accepts; 0 */
    REMBULFOSE_NO_ENTRY = 35,      /* the path leads to no entry; 0 */
    REMBULFOSE_ABSENT_ELEMENT = 36, /* the path leads to an absent element; 0 */
    REMBULFOSE_NO_NUMBER = 37      /* the element is not a number; 0 */
};

/* Who sent a message (R2.4). */
enum rembulfose_side { REMBULFOSE_CLIENT = 0, REMBULFOSE_SERVER = 1 };

/* A plan's words (R4.1, R4.2): how many there are, the root's number, then the nodes. A node's number is that of its first
 * word in the plan; this word is its kind. What follows it is said at each kind, where a ref is the number of another node. */
enum rembulfose_kind {
    REMBULFOSE_KIND_LEAF = 1,          /* format: a scalar */
    REMBULFOSE_KIND_SET_OR_ARRAY = 2,  /* ref of its elements */
    REMBULFOSE_KIND_SET_OF_ARRAYS = 3, /* ref of its arrays */
    REMBULFOSE_KIND_TUPLE = 4,         /* count, then so many refs */
    REMBULFOSE_KIND_OUTPUT_OBJECT = 5, /* count, then so many pairs of ref and cardinality */
    REMBULFOSE_KIND_INPUT_OBJECT = 6,  /* the same; sparse: a value gives the index of each element that it has */
    REMBULFOSE_KIND_RANGE = 7,         /* ref of its bounds */
    REMBULFOSE_KIND_ENUMERATION = 8    /* nothing: a text */
};

/* The formats of scalars (R5.15), the second word of a leaf's node. REMBULFOSE_FORMATS: how many there are. */
#define REMBULFOSE_FORMATS 20
enum rembulfose_format {
    REMBULFOSE_FORMAT_UUID = 0,
    REMBULFOSE_FORMAT_STR = 1,
    REMBULFOSE_FORMAT_BYTES = 2,
    REMBULFOSE_FORMAT_INT16 = 3,
    REMBULFOSE_FORMAT_INT32 = 4,
    REMBULFOSE_FORMAT_INT64 = 5,
    REMBULFOSE_FORMAT_FLOAT32 = 6,
    REMBULFOSE_FORMAT_FLOAT64 = 7,
    REMBULFOSE_FORMAT_DECIMAL = 8,
    REMBULFOSE_FORMAT_BOOL = 9,
    REMBULFOSE_FORMAT_DATETIME = 10,
    REMBULFOSE_FORMAT_LOCAL_DATETIME = 11,
    REMBULFOSE_FORMAT_LOCAL_DATE = 12,
    REMBULFOSE_FORMAT_LOCAL_TIME = 13, /* microseconds of a day: from 0 to 86,399,999,999, and no others (R5.15) */
    REMBULFOSE_FORMAT_DURATION = 14,
    REMBULFOSE_FORMAT_JSON = 15,
    REMBULFOSE_FORMAT_BIGINT = 16,
    REMBULFOSE_FORMAT_RELATIVE_DURATION = 17,
    REMBULFOSE_FORMAT_DATE_DURATION = 18,
    REMBULFOSE_FORMAT_MEMORY = 19
};

/* Cardinalities (R2.10, R5.11): of an object's element in a plan, and of a query's result in T. ONE and AT_LEAST_ONE are
 * required. */
enum rembulfose_cardinality {
    REMBULFOSE_CARDINALITY_NONE = 0x6e,
    REMBULFOSE_CARDINALITY_AT_MOST_ONE = 0x6f,
    REMBULFOSE_CARDINALITY_ONE = 0x41,
    REMBULFOSE_CARDINALITY_MANY = 0x6d,
    REMBULFOSE_CARDINALITY_AT_LEAST_ONE = 0x4d
};

/* The words of an entry in a value's list (R6.1): how many an entry has, and which is which. */
#define REMBULFOSE_ENTRY_WORDS 5
enum rembulfose_entry {
    REMBULFOSE_ENTRY_NODE = 0,   /* in the plan */
    REMBULFOSE_ENTRY_INDEX = 1,  /* position in its container; input object: as sent; bounds: 0 and 1; top: 0 (R6.3) */
    REMBULFOSE_ENTRY_START = 2,  /* of its bytes in the value; absent: where its head ends */
    REMBULFOSE_ENTRY_LENGTH = 3, /* of its bytes, or REMBULFOSE_ABSENT */
    REMBULFOSE_ENTRY_BELOW = 4   /* how many entries have this one as their container */
};

/* The length of an absent element. */
#define REMBULFOSE_ABSENT 0xffffffffu

/* Word number `index`, from 0, of a plan, list or path: the four bytes at 4 * index, big-endian, which must be there. This one
 * is plain C, compiled with the host, and nothing about it is proved. */
static inline uint32_t rembulfose_word(const uint8_t *words, size_t index) {
    const uint8_t *at = words + 4 * index;
    uint32_t word = at[0];
    word = word << 8 | at[1];
    word = word << 8 | at[2];
    return word << 8 | at[3];
}

/* Reads the message at the start of src (section 2). What follows it there has no effect.
 * side: who sent it. src: the bytes received so far. list: room for two words for each field of the body, in the order of
 * R2.8 or R2.9: the place of its content, counted from the type byte, and the content's length. The length in front of a text
 * or bytes is not part of these; the number in front of repeated items is a field too (R2.13).
 * first = bytes used, second = words written.
 * Order (R1.6): 1 for fewer than 5 bytes; 2; 1 for a message that is cut off; 3; one field after the other, 4 and then 6; 5;
 * 31. */
rembulfose_answer rembulfose_read_message(uint32_t side, const uint8_t *src, size_t src_len,
                                          uint8_t *list, size_t list_len);

/* The intake: bytes as they come off a line go in, in deliveries that are cut anywhere; whole messages come out (section 10).
 * A host that was handed `length` bytes at `delivery` drains them so, with REMBULFOSE_MOST_MESSAGE bytes of room for any
 * message, and handle and at_end its own:
 *
 *     rembulfose_delivery got;
 *     do {
 *         got = rembulfose_intake_take(intake, delivery, length, room, sizeof room);
 *         intake = got.intake, delivery += got.taken, length -= got.taken;
 *         if (got.length > 0)
 *             handle(room, got.length);
 *     } while (got.length > 0);
 *     at_end(got.number, got.place, got.lacks);
 *
 * The loop ends when the delivery is taken whole and no message with it, or when the intake refuses. However the same bytes are
 * cut, the messages, the refusal and the state at the end are the same (R10.8). */

/* The state of an intake for a side (any other than REMBULFOSE_CLIENT and _SERVER knows no type) and a room of room_len bytes. */
rembulfose_intake rembulfose_intake_start(uint32_t side, size_t room_len);

/* The state as after a start with the same side and room: an unfinished message and a refusal are dropped. */
rembulfose_intake rembulfose_intake_reset(rembulfose_intake intake);

/* Takes bytes from the front of src until a message is whole or src ends (R10.3, R10.4).
 * intake: the state that the last call on this line returned. src: what has come, may be empty. room: the same bytes with the
 * same length from the start to the reset; in between it is the intake's own, also after a refusal. The message that is given
 * stands at its front until the next call.
 * Order (R1.14): 32 for a room of another length, with the state as it was (R10.6); the refusal that ended the intake, again;
 * 32 at the first byte if the room has fewer than 5; once 5 bytes are there 2, and 32 for a message larger than the room; once
 * it is whole 3, then 4 to 6 as in rembulfose_read_message. Number 1 is never given.
 * Of a state or a room that others have written to, only this is promised: the call ends and stays inside its buffers. */
rembulfose_delivery rembulfose_intake_take(rembulfose_intake intake, const uint8_t *src, size_t src_len,
                                           uint8_t *room, size_t room_len);

/* Writes the message of a side and a type byte whose fields hold the bytes of src that the list's pairs name (R2.14).
 * side: who sends it. type: the type byte. list: a pair for each field, start in src and length, as rembulfose_read_message
 * gives them. src: the fields' contents, in any order; pairs may overlap. out: room for the message.
 * first = bytes written. Order (R1.7): 3, 6, 2, 32; the place is always 0. 6 is given too for pairs that do not match the
 * fields in number or size, for a pair that src does not hold (R2.15), and for a list that does not cross (R9.4). */
rembulfose_answer rembulfose_write_message(uint32_t side, uint8_t type,
                                           const uint8_t *list, size_t list_len,
                                           const uint8_t *src, size_t src_len,
                                           uint8_t *out, size_t out_len);

/* Compiles a descriptor's plan (section 3, R4.7, R4.8).
 * descriptor: its bytes, as T and s carry them. root: the 16 bytes of the id of the block that values are of; any other
 * length is 18. plan: room for the plan's words.
 * first = words written, so the plan is the first 4 * first bytes of the room.
 * Order (R1.8): 17 for too many bytes in all; 18 for a root id of another length, or of zeros while the descriptor has bytes;
 * block after block, and in it field after field, 10 if it is cut off and then what it may hold, 11 to 17; 18; 30.
 * No bytes and a root id of zeros are "no type": the plan 2,0 (R4.6). */
rembulfose_answer rembulfose_compile(const uint8_t *descriptor, size_t descriptor_len, const uint8_t *root, size_t root_len,
                                     uint8_t *plan, size_t plan_len);

/* Checks a value by a plan and lists it (sections 5 and 6).
 * plan: as rembulfose_compile gives it, no byte more or fewer. value: its bytes, as D and C carry them. list: room for
 * entries, whose words are those of enum rembulfose_entry. Behind a container's entry stand those of its elements in turn,
 * each with all that it holds (R6.2).
 * A place of 20 to 27 is counted from the value's first byte (R1.12).
 * first = words written. Order (R1.9): 33 (also for a plan that does not cross, R9.4), 28, the first fault of the value by
 * R5.2, 31. */
rembulfose_answer rembulfose_run(const uint8_t *plan, size_t plan_len, const uint8_t *value, size_t value_len,
                                 uint8_t *list, size_t list_len);

/* Writes the value that has a supply (section 8).
 * plan: as in rembulfose_run. list and src are the supply: a list as rembulfose_run gives it, and bytes. The value has the
 * list's nodes, indexes, numbers of entries below and absent elements, for each leaf the bytes of src at its start and
 * length, and for each range the flags byte of src at its start. All other starts, and lengths that are not REMBULFOSE_ABSENT,
 * may be anything (R8.2). Leaves and flags may overlap and lie in any order in src. out: room for the value.
 * The reserved fields of containers are written as zero (R8.5).
 * first = bytes written. Order (R1.10): 33 (as in rembulfose_run), 34, 32; the place is always 0. 34 is given too for a list
 * that does not cross (R9.4) or does not consist of whole entries, for a leaf or flags that src does not hold, empty leaves
 * included (R8.7), and for a value that would be too large (R8.10). "No type" has the empty list and no bytes (R8.11). */
rembulfose_answer rembulfose_write_value(const uint8_t *plan, size_t plan_len, const uint8_t *list, size_t list_len,
                                         const uint8_t *src, size_t src_len, uint8_t *out, size_t out_len);

/* Finds the element that a path leads to from the top (section 7). What is found are bytes of value itself; none is copied.
 * plan, value: as in rembulfose_run. path: words, the index of an element, then of one inside it, and so on: an index is the
 * second word of the element's entry in the list that rembulfose_run gives (R6.3). A path of no words leads to the value as
 * a whole. There is no list, so values that are too long to be listed can be searched (R7.7).
 * first = start in the value, second = length. Order (R1.11): 33 (as in rembulfose_run), 28, the value's faults, 35 (also
 * for a path that does not cross, R9.4) or 36. Under "no type" every path is 35 (R7.6). */
rembulfose_answer rembulfose_find(const uint8_t *plan, size_t plan_len, const uint8_t *value, size_t value_len,
                                  const uint8_t *path, size_t path_len);

/* Finds an element as rembulfose_find does, with the same arguments, and gives it as one number (R7.8 to R7.11). Order: as
 * there, then 37 for all that is no int16, int32, int64, float32, float64, bool or memory. */
rembulfose_number rembulfose_find_number(const uint8_t *plan, size_t plan_len, const uint8_t *value, size_t value_len,
                                         const uint8_t *path, size_t path_len);

/* A refusal number's meaning in English, without a full stop: "the message is not whole yet". 0 is "not refused", and what is
 * no refusal number says so. The text is constant and never null. This one is plain C (host/refusal.c), and nothing about it
 * is proved. The installed archive has it; a host that links libc_panel.a itself compiles that file too. */
const char *rembulfose_refusal_text(uint32_t number);

#ifdef __cplusplus
}
#endif

#endif
