/* Messages, printed field by field, and the descriptors and values in them. */
#ifndef MESSAGES_H
#define MESSAGES_H

#include "screen.h"
#include "session.h"

/* Prints what a session has come to: a message with all that is in it, or what is wrong at the end. */
void print_event(const struct screen *screen, const struct session *session);

/* The line that says which message it is. */
void print_message_head(const struct screen *screen, const struct message *message);

/* The closing line: how many messages and rows were read, how many messages were refused, and how much is
 * unfinished, if anything is. */
void print_sum(const struct screen *screen, const struct session *session);

/* Prints a refusal of the message itself. */
void print_message_refusal(const struct screen *screen, unsigned depth,
                           const struct message *message);

/* Prints "not described", and why, of a value that no description is certain for. */
void print_undescribed(const struct screen *screen, const struct part *part);

/* Prints a refusal of a part of it. */
void print_part_refusal(const struct screen *screen, unsigned depth, const struct part *part);

#endif
