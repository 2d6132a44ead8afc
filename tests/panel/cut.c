/* Makes the same capture on standard output with its records cut smaller.
 *
 *     cut SIZE SIDE CAPTURE
 *
 * Each record is cut into records of SIZE bytes, or of any number at random if SIZE is 0. SIDE, 0 or 1, is
 * whose bytes a one-sided capture holds; what is made of it is side-marked. */
#include "records.h"

int main(int count, char **words) {
    must(count == 4, "usage: cut SIZE SIDE CAPTURE");
    struct bytes capture = load(words[3]);
    struct bytes cut = cut_records(&capture, (uint8_t)atoi(words[2]), (size_t)atoi(words[1]));
    must(fwrite(cut.at, 1, cut.length, stdout) == cut.length && fflush(stdout) == 0, words[3]);
    free(cut.at);
    free(capture.at);
    return 0;
}
