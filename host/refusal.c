/* What the refusal numbers mean, in words. Plain C beside the library. */
#include "../include/rembulfose.h"

struct meaning {
    uint32_t number;
    const char *text;
};

static const struct meaning meanings[] = {
    {REMBULFOSE_NOT_WHOLE, "the message is not whole yet"},
    {REMBULFOSE_BAD_LENGTH, "the message's length field is under 4 or over 65,535"},
    {REMBULFOSE_UNKNOWN_TYPE, "the message's type byte is not known for that side"},
    {REMBULFOSE_FIELD_PAST_END, "a field runs past the message's end"},
    {REMBULFOSE_BYTES_LEFT, "bytes of the message are left over"},
    {REMBULFOSE_BAD_FIELD, "what a message's field holds is not permitted"},
    {REMBULFOSE_DESCRIPTOR_END, "the descriptor ends inside a field"},
    {REMBULFOSE_UNKNOWN_TAG, "the descriptor has a block whose tag is not known"},
    {REMBULFOSE_BAD_CONTENT, "what a descriptor's field holds is not permitted"},
    {REMBULFOSE_BAD_REFERENCE, "a descriptor's block refers to one that is not before it"},
    {REMBULFOSE_WRONG_KIND, "a descriptor's block refers to one of the wrong kind"},
    {REMBULFOSE_BAD_ID, "a descriptor's block has the id zero, or that of an earlier one"},
    {REMBULFOSE_NAME_TWICE, "a name stands twice in an input shape or named tuple"},
    {REMBULFOSE_DESCRIPTOR_SIZE, "the descriptor is larger, longer or deeper than permitted"},
    {REMBULFOSE_NO_ROOT, "the descriptor's root is missing, or is of a kind without values"},
    {REMBULFOSE_CONTAINER_END, "a container ends inside a head, or before its element does"},
    {REMBULFOSE_VALUE_LEFT, "bytes of a container are left over"},
    {REMBULFOSE_BAD_HEAD, "a field in a container's head is not permitted"},
    {REMBULFOSE_BAD_SIZE, "an element's length is below -1, or -1 where none may be absent"},
    {REMBULFOSE_BAD_SCALAR, "what a scalar or enumeration holds is not permitted"},
    {REMBULFOSE_INDEX_OUTSIDE, "an index of an input record is outside of its shape"},
    {REMBULFOSE_INDEX_TWICE, "an index of an input record is given twice"},
    {REMBULFOSE_REQUIRED, "a required element is not given, or absent"},
    {REMBULFOSE_VALUE_SIZE, "the value has over 65,535 bytes"},
    {REMBULFOSE_PLAN_ROOM, "the room for the plan is too small"},
    {REMBULFOSE_LIST_ROOM, "the room for the list is too small"},
    {REMBULFOSE_OUTPUT_ROOM, "the room for a message or value is too small, or not as at the start"},
    {REMBULFOSE_BAD_PLAN, "the plan is not well formed"},
    {REMBULFOSE_NO_VALUE, "no accepted value has this supply"},
    {REMBULFOSE_NO_ENTRY, "the path leads to no element"},
    {REMBULFOSE_ABSENT_ELEMENT, "the path ends at an absent element"},
    {REMBULFOSE_NO_NUMBER, "the element is not a single number"},
};

const char *rembulfose_refusal_text(uint32_t number) {
    for (size_t i = 0; i < sizeof meanings / sizeof meanings[0]; i++)
        if (meanings[i].number == number)
            return meanings[i].text;
    return number == 0 ? "not refused" : "not a refusal number";
}
