/* The messages of a capture one after the other, and what is carried from one to the next: the sides,
 * the plans of the descriptors met, and the counts. */
#ifndef SESSION_H
#define SESSION_H

#include "plan.h"
#include "side.h"

/* A descriptor or value inside a message. */
enum part_kind { DESCRIPTOR_PART, VALUE_PART, UNREAD_PART };

struct part {
    enum part_kind kind;
    struct sent sent;       /* its bytes, and what it is: "input descriptor", "row", .. */
    struct plan *plan;      /* that was compiled, or that the value was run by */
    rembulfose_answer answer; /* the library's; of UNREAD_PART (not described) zero */
    unsigned long lost;     /* of UNREAD_PART: the message since which its description is lost; 0 if
                             * none was met */
};

struct message {
    unsigned long number;     /* messages are counted from 1 */
    struct sent sent;         /* of one whose length is not permitted, the head alone */
    rembulfose_answer answer; /* of reading it */
    uint8_t fields[REMBULFOSE_ROOM]; /* the list of its fields */
    struct part parts[2];
    unsigned part_count;
    unsigned long row;        /* of a D, counted from 1; otherwise 0 */
    uint8_t list[REMBULFOSE_ROOM];   /* of its value, if it has one that was accepted */
};

/* What values of one kind, rows or state data, are read by: the descriptor of the last T or s, as long as
 * it is certain that it was the last (README.md, "What is read by what"). */
struct description {
    struct plan plan;
    unsigned long lost;       /* the message since which that is not certain; 0 if the plan is known, or
                               * if no description was met */
};

/* What a session has come to. Messages come first, the others at the capture's end. */
enum event {
    MESSAGE,     /* a message that is whole, or refused */
    CUT_RECORD,  /* the capture ends inside a record */
    UNFINISHED,  /* a side's last message is not whole */
    UNREAD_REST  /* bytes of a side were not read, behind a length that is not permitted */
};

enum { SIDES = 256 };

struct session {
    struct capture *capture;
    struct piece piece;       /* what has come and is not taken yet */
    struct side *sides[SIDES]; /* by the byte that stands for them; null if nothing came from one */
    enum event event;
    const struct side *side;  /* of UNFINISHED and UNREAD_REST */
    unsigned sides_ended;     /* at the end: how many sides were looked at */
    unsigned long messages, rows;
    unsigned long refused, unfinished; /* messages that were refused; CUT_RECORD and UNFINISHED */
    struct description output, state; /* of rows and of state data */
    struct plan input, none;  /* of the last T's arguments, only shown; and of "no type" */
    struct message message;   /* the current one */
};

/* A session at the capture's start; null if there is no memory. */
struct session *session_new(struct capture *capture);

void session_free(struct session *session);

/* Moves to the next event; false at the end, and if the capture could not be read on. */
bool session_next(struct session *session);

/* The first refusal in the current message: of reading it, or of a part; null if there is none. A part
 * is given back in `*part`, and null for the message itself. */
const rembulfose_answer *session_refusal(const struct session *session, const struct part **part);

#endif
