#define _POSIX_C_SOURCE 200809L
#include "capture.h"

#include "bytes.h"

#include <errno.h>
#include <fcntl.h>
#include <string.h>
#include <sys/stat.h>
#include <unistd.h>

/* Reads what has come, behind what is in the buffer; false at the end. read(2) waits for the first byte
 * only, and fread would wait until the buffer is full. */
static bool fill(struct capture *capture) {
    ssize_t got = 0;
    while (!capture->ended && got <= 0) {
        got = read(capture->file, capture->buffer + capture->end,
                   sizeof capture->buffer - capture->end);
        capture->ended = got == 0 || (got < 0 && errno != EINTR);
        capture->error = got < 0 && capture->ended ? errno : 0;
    }
    capture->end += got > 0 ? (size_t)got : 0;
    return got > 0;
}

/* Whether so many bytes are there to be taken; waits for them. They are few beside the buffer. */
static bool await(struct capture *capture, size_t count) {
    if (capture->end - capture->start >= count)
        return true;
    memmove(capture->buffer, capture->buffer + capture->start, capture->end - capture->start);
    capture->end -= capture->start;
    capture->start = 0;
    while (capture->end < count)
        if (!fill(capture))
            return false;
    return true;
}

/* Takes so many bytes, which are there. */
static const uint8_t *take(struct capture *capture, size_t count) {
    const uint8_t *bytes = capture->buffer + capture->start;
    capture->start += count;
    capture->position += count;
    return bytes;
}

/* Tells which kind of capture it is as soon as its bytes do, and takes the first line of a side-marked
 * one. */
static void decide(struct capture *capture) {
    const char *magic = CAPTURE_MAGIC;
    size_t length = strlen(magic), same = 0;
    while (same < length && await(capture, same + 1) &&
           capture->buffer[same] == (uint8_t)magic[same])
        same++;
    capture->marked = same == length;
    if (capture->marked)
        take(capture, length);
}

bool capture_open(struct capture *capture, const char *name, uint32_t side) {
    bool standard = name == NULL || strcmp(name, "-") == 0;
    struct stat about;
    capture->name = standard ? "standard input" : name;
    capture->file = standard ? STDIN_FILENO : open(name, O_RDONLY);
    capture->ended = capture->file < 0;
    capture->error = capture->ended ? errno : 0;
    capture->side = side;
    capture->whole = capture->position = 0;
    capture->record = (struct record){0, 0, 0};
    capture->start = capture->end = 0;
    if (fstat(capture->file, &about) == 0 && S_ISREG(about.st_mode))
        capture->whole = (uint64_t)about.st_size;
    decide(capture);
    return capture->error == 0;
}

void capture_close(struct capture *capture) {
    if (capture->file > STDIN_FILENO)
        close(capture->file);
    capture->file = -1;
}

/* Moves to the next record that has bytes, unless the last one has some left; false at the end. */
static bool enter_record(struct capture *capture) {
    struct record *record = &capture->record;
    while (record->given == record->promised) {
        if (!await(capture, RECORD_HEAD))
            return false;
        const uint8_t *head = take(capture, RECORD_HEAD);
        *record = (struct record){head[0], get_32(head + 1), 0};
    }
    return true;
}

bool capture_next(struct capture *capture, struct piece *piece) {
    struct record *record = &capture->record;
    if ((capture->marked && !enter_record(capture)) || !await(capture, 1))
        return false;
    size_t there = capture->end - capture->start, left = record->promised - record->given;
    size_t length = capture->marked && left < there ? left : there;
    uint32_t side = capture->marked ? record->side : capture->side;
    *piece = (struct piece){side, take(capture, length), length};
    record->given += capture->marked ? length : 0;
    return true;
}

enum cut capture_cut(const struct capture *capture) {
    if (capture->record.given < capture->record.promised)
        return CUT_IN_RECORD;
    return capture->end > capture->start ? CUT_IN_HEAD : NOT_CUT;
}
