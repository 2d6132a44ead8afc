/* The refusal numbers in words: each number of R1.3 has a text of its own, and no other has. */
#define _DEFAULT_SOURCE
#include "cases.h"

static int is_number(uint32_t number) {
    return (number >= 1 && number <= 6) || (number >= 10 && number <= 18) ||
           (number >= 20 && number <= 28) || (number >= 30 && number <= 37);
}

static int same_text(uint32_t one, uint32_t other) {
    return strcmp(rembulfose_refusal_text(one), rembulfose_refusal_text(other)) == 0;
}

/* Whether a number's text is not that of another refusal number. */
static int alone(uint32_t number) {
    for (uint32_t other = 1; other < 64; other++)
        if (other != number && is_number(other) && same_text(number, other))
            return 0;
    return 1;
}

/* The numbers of R1.3, by their names in the header. */
static const uint32_t table[][2] = {
    {REMBULFOSE_NOT_WHOLE, 1},        {REMBULFOSE_BAD_LENGTH, 2},
    {REMBULFOSE_UNKNOWN_TYPE, 3},     {REMBULFOSE_FIELD_PAST_END, 4},
    {REMBULFOSE_BYTES_LEFT, 5},       {REMBULFOSE_BAD_FIELD, 6},
    {REMBULFOSE_DESCRIPTOR_END, 10},  {REMBULFOSE_UNKNOWN_TAG, 11},
    {REMBULFOSE_BAD_CONTENT, 12},     {REMBULFOSE_BAD_REFERENCE, 13},
    {REMBULFOSE_WRONG_KIND, 14},      {REMBULFOSE_BAD_ID, 15},
    {REMBULFOSE_NAME_TWICE, 16},      {REMBULFOSE_DESCRIPTOR_SIZE, 17},
    {REMBULFOSE_NO_ROOT, 18},         {REMBULFOSE_CONTAINER_END, 20},
    {REMBULFOSE_VALUE_LEFT, 21},      {REMBULFOSE_BAD_HEAD, 22},
    {REMBULFOSE_BAD_SIZE, 23},        {REMBULFOSE_BAD_SCALAR, 24},
    {REMBULFOSE_INDEX_OUTSIDE, 25},   {REMBULFOSE_INDEX_TWICE, 26},
    {REMBULFOSE_REQUIRED, 27},        {REMBULFOSE_VALUE_SIZE, 28},
    {REMBULFOSE_PLAN_ROOM, 30},       {REMBULFOSE_LIST_ROOM, 31},
    {REMBULFOSE_OUTPUT_ROOM, 32},     {REMBULFOSE_BAD_PLAN, 33},
    {REMBULFOSE_NO_VALUE, 34},        {REMBULFOSE_NO_ENTRY, 35},
    {REMBULFOSE_ABSENT_ELEMENT, 36},  {REMBULFOSE_NO_NUMBER, 37},
};

int main(void) {
    const uint32_t no_number = 7;
    for (size_t i = 0; i < sizeof table / sizeof table[0]; i++)
        count("a number's name", table[i][0] == table[i][1]);
    count("0", strcmp(rembulfose_refusal_text(0), "not refused") == 0);
    count("7", strcmp(rembulfose_refusal_text(no_number), "not a refusal number") == 0);
    count("the largest number", same_text(UINT32_MAX, no_number));
    for (uint32_t number = 1; number < 64; number++) {
        int good = is_number(number) ? !same_text(number, no_number) && alone(number)
                                     : same_text(number, no_number);
        count("a number's text", good);
    }
    return finish();
}
