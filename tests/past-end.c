/* Reads one byte past the end of what it was given: what looks for that must tell it, or it finds nothing anywhere. */
#include <stdio.h>
#include <stdlib.h>

int main(int count, char **words) {
    char *bytes = calloc((size_t)count, 1);
    if (bytes == NULL || words == NULL)
        return 2;
    printf("%d\n", bytes[count]);
    free(bytes);
    return 0;
}
