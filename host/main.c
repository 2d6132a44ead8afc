/* panel: shows what a capture of the wire holds. */
#include "../include/rembulfose.h"
#include "bytes.h"
#include "commands.h"

#include <errno.h>
#include <stdbool.h>
#include <stdio.h>
#include <stdlib.h>
#include <string.h>

static const char help[] =
    "panel - decodes a capture of the wire between a panel and its batch tracker\n"
    "\n"
    "usage:\n"
    "  panel show   [--client] [FILE]           print every message\n"
    "  panel follow [--client]                  the same, as standard input comes in\n"
    "  panel check  [--client] [FILE]           read every message, stop at the first refusal\n"
    "  panel find   [--client] FILE ROW [PATH]  print one element of a row\n"
    "  panel --help                             print this\n"
    "  panel --version                          print the version\n"
    "\n"
    "FILE is a capture; without one, or with -, standard input is read. After -- a\n"
    "word that starts with a dash is no option. `follow` reads standard input alone:\n"
    "a pipe from a live line, of which each message is printed once it is whole.\n"
    "ROW counts the capture's D messages from 1, as `panel show` does.\n"
    "PATH is the indexes that lead to the element from the top, with dots between\n"
    "them, as `panel show` prints them: 2 is the third element, 2.0 the first one\n"
    "inside it. A range's bounds are 0 (lower) and 1 (upper). Without a path the\n"
    "whole row is printed.\n"
    "\n"
    "A D's value is read by the output descriptor of the last T before it, and the\n"
    "state data of a C by the last s, if it has the id that the C names. After a\n"
    "message that is refused and may have been a newer description they are not\n"
    "described: `show` gives their bytes, `find` refuses, `check` ends with 1.\n"
    "Whatever the library refuses is printed with the number, its meaning, and the\n"
    "bytes around the place. `show` goes on after a refusal; only behind a length that\n"
    "is not permitted (2) the rest of that side is not read, and this is said at the\n"
    "end, as is what lacks of a message that is not whole.\n"
    "\n"
    "captures:\n"
    "  side-marked   The line \"rembulfose-capture 1\", then records: a byte for the\n"
    "                side (0 client, 1 server), a length of 4 bytes, big-endian, and\n"
    "                so many bytes of that side. Records may cut messages anywhere.\n"
    "  one-sided     Any other file: the bytes that the server sent, as they went\n"
    "                over the wire; with --client, those that the client sent.\n"
    "                --client with a side-marked capture is an error.\n"
    "Where a message starts is counted in the bytes of its side.\n"
    "\n"
    "Colour and the bar for long captures appear on a terminal only. If NO_COLOR is\n"
    "set there is no colour.\n"
    "\n"
    "exit status:\n"
    "  0  all was printed; check: nothing was refused; find: the element was found\n"
    "  1  check: something was refused, is unfinished or could not be checked, or\n"
    "     there was nothing to check; find: not found\n"
    "  2  the command was not understood, or the capture could not be read\n";

struct arguments {
    const char *words[3]; /* FILE ROW PATH; null and empty where they are not given */
    int count;
    uint32_t side;
};

int no_memory(void) {
    fputs("panel: no memory\n", stderr);
    return TROUBLE;
}

int finished(int status) {
    if (fflush(stdout) == 0 && !ferror(stdout))
        return status;
    fprintf(stderr, "panel: cannot print: %s\n", strerror(errno));
    return TROUBLE;
}

static int misused(const char *why) {
    fprintf(stderr, "panel: %s\nTry `panel --help`.\n", why);
    return TROUBLE;
}

/* Sorts the arguments; false if there are too many or an option is not known. What comes after -- is no
 * option. */
static bool sort_arguments(int count, char **words, struct arguments *arguments) {
    bool options = true;
    *arguments = (struct arguments){.words = {NULL, "", ""}, .side = SERVER};
    for (int i = 2; i < count; i++) {
        bool dashed = options && words[i][0] == '-' && words[i][1] != 0;
        if (dashed && strcmp(words[i], "--") == 0)
            options = false;
        else if (dashed && strcmp(words[i], "--client") == 0)
            arguments->side = CLIENT;
        else if (dashed || arguments->count == 3)
            return false;
        else
            arguments->words[arguments->count++] = words[i];
    }
    return true;
}

/* A number below 2^32 in decimal digits alone, which `*text` moves past; false if there is none. */
static bool take_number(const char **text, uint32_t *number) {
    uint64_t sum = 0;
    if (**text < '0' || **text > '9')
        return false;
    for (; **text >= '0' && **text <= '9' && sum <= UINT32_MAX; ++*text)
        sum = 10 * sum + (uint64_t)(**text - '0');
    *number = (uint32_t)sum;
    return sum <= UINT32_MAX;
}

/* The words of a path, 4 bytes each; how many in `*count`. False if it is no path. `path` has four
 * bytes for each two letters of the text, and four more. */
static bool take_path(const char *text, uint8_t *path, size_t *count) {
    uint32_t index;
    *count = 0;
    if (*text == 0)
        return true;
    while (take_number(&text, &index)) {
        put_32(path + 4 * (*count)++, index);
        if (*text == 0)
            return true;
        if (*text++ != '.')
            return false;
    }
    return false;
}

/* Opens the capture that is named. One that says itself who sent what is not taken as the client's. */
static bool open_capture(const struct arguments *arguments, struct capture *capture) {
    if (!capture_open(capture, arguments->words[0], arguments->side))
        return false;
    if (!capture->marked || arguments->side != CLIENT)
        return true;
    misused("--client is for one side's bytes, and this capture is side-marked");
    return false;
}

/* The status of a command that has ended; if the capture could not be read, says so. */
static int close_capture(struct capture *capture, int status) {
    capture_close(capture);
    if (capture->error == 0)
        return status;
    fprintf(stderr, "panel: cannot read %s: %s\n", capture->name, strerror(capture->error));
    return TROUBLE;
}

static int find_in_capture(const struct arguments *arguments, uint32_t row, const uint8_t *path,
                           size_t path_words) {
    struct capture capture;
    int status = TROUBLE;
    if (open_capture(arguments, &capture))
        status = command_find(&capture, row, path, path_words);
    return close_capture(&capture, status);
}

/* Row and path are understood before anything is read: whoever mistypes them should not have to wait
 * for standard input to end. */
static int run_find(const struct arguments *arguments) {
    const char *row_text = arguments->words[1];
    const char *path_text = arguments->words[2];
    uint8_t *path = malloc(4 * (strlen(path_text) / 2 + 1));
    uint32_t row;
    size_t path_words;
    int status;
    if (path == NULL)
        return no_memory();
    if (!take_number(&row_text, &row) || *row_text != 0 || row == 0)
        status = misused("ROW is a number from 1 up");
    else if (!take_path(path_text, path, &path_words))
        status = misused("PATH is numbers with dots between them");
    else
        status = find_in_capture(arguments, row, path, path_words);
    free(path);
    return status;
}

static int run_whole(const struct arguments *arguments, int (*command)(struct capture *)) {
    struct capture capture;
    int status = TROUBLE;
    if (open_capture(arguments, &capture))
        status = command(&capture);
    return close_capture(&capture, status);
}

struct command {
    const char *name;
    int least, most;                  /* how many of FILE ROW PATH it takes */
    int (*whole)(struct capture *);   /* of those that are about a capture as a whole */
};

/* The command of a name; null if there is none. */
static const struct command *command_of(const char *name) {
    static const struct command commands[] = {{"show", 0, 1, command_show},
                                              {"follow", 0, 0, command_follow},
                                              {"check", 0, 1, command_check},
                                              {"find", 2, 3, NULL}};
    for (size_t i = 0; i < sizeof commands / sizeof commands[0]; i++)
        if (strcmp(commands[i].name, name) == 0)
            return &commands[i];
    return NULL;
}

/* Whether an option stands before or after the command, and not after --. */
static bool asks_for(int count, char **words, const char *option) {
    for (int i = 1; i < count && strcmp(words[i], "--") != 0; i++)
        if (strcmp(words[i], option) == 0)
            return true;
    return false;
}

int main(int count, char **words) {
    struct arguments arguments;
    if (count < 2)
        return misused("a command is missing");
    if (asks_for(count, words, "--help") || asks_for(count, words, "-h")) {
        fputs(help, stdout);
        return finished(DONE);
    }
    if (asks_for(count, words, "--version")) {
        puts("panel " REMBULFOSE_VERSION);
        return finished(DONE);
    }
    const struct command *command = command_of(words[1]);
    if (command == NULL)
        return misused("no such command");
    if (!sort_arguments(count, words, &arguments))
        return misused("an argument is not understood");
    if (arguments.count < command->least)
        return misused("find needs FILE and ROW");
    if (arguments.count > command->most)
        return misused("too many arguments");
    return command->whole == NULL ? run_find(&arguments) : run_whole(&arguments, command->whole);
}
