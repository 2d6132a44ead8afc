#include "commands.h"

int command_follow(struct capture *capture) {
    return print_capture(capture, true);
}
