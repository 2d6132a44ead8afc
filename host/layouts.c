#include "layouts.h"

#include "capture.h"

static const struct code error_severities[] = {
    {0x78, "error"}, {0xc8, "fatal"}, {0xff, "panic"}, {0, NULL}};
static const struct code log_severities[] = {
    {0x14, "debug"}, {0x28, "info"}, {0x3c, "notice"}, {0x50, "warning"}, {0, NULL}};
static const struct code states[] = {{0x49, "not in a transaction"},
                                     {0x54, "in a transaction"},
                                     {0x45, "in a failed transaction"},
                                     {0, NULL}};
static const struct code cardinalities[] = {
    {REMBULFOSE_CARDINALITY_NONE, "none"},
    {REMBULFOSE_CARDINALITY_AT_MOST_ONE, "at most one"},
    {REMBULFOSE_CARDINALITY_ONE, "one"},
    {REMBULFOSE_CARDINALITY_MANY, "many"},
    {REMBULFOSE_CARDINALITY_AT_LEAST_ONE, "at least one"},
    {0, NULL}};

#define END {NULL, NUMBER, NULL, NULL}

static const struct field text_pair[] = {
    {"name", TEXT, NULL, NULL}, {"value", TEXT, NULL, NULL}, END};
static const struct field attribute[] = {
    {"key", NUMBER, NULL, NULL}, {"value", BYTES_FIELD, NULL, NULL}, END};
static const struct field extension[] = {
    {"name", TEXT, NULL, NULL}, {"annotations", RUN, text_pair, NULL}, END};

static const struct field error_fields[] = {{"severity", CODE, NULL, error_severities},
                                            {"error_code", BITS, NULL, NULL},
                                            {"message", TEXT, NULL, NULL},
                                            {"attributes", RUN, attribute, NULL},
                                            END};
static const struct field log_fields[] = {{"severity", CODE, NULL, log_severities},
                                          {"code", BITS, NULL, NULL},
                                          {"text", TEXT, NULL, NULL},
                                          {"annotations", RUN, text_pair, NULL},
                                          END};
static const struct field ready_fields[] = {
    {"annotations", RUN, text_pair, NULL}, {"transaction_state", CODE, NULL, states}, END};
static const struct field complete_fields[] = {{"annotations", RUN, text_pair, NULL},
                                               {"capabilities", BITS, NULL, NULL},
                                               {"status", TEXT, NULL, NULL},
                                               {"state_typedesc_id", UUID_FIELD, NULL, NULL},
                                               {"state_data", BYTES_FIELD, NULL, NULL},
                                               END};
static const struct field description_fields[] = {{"annotations", RUN, text_pair, NULL},
                                                  {"capabilities", BITS, NULL, NULL},
                                                  {"result_cardinality", CODE, NULL, cardinalities},
                                                  {"input_typedesc_id", UUID_FIELD, NULL, NULL},
                                                  {"input_typedesc", BYTES_FIELD, NULL, NULL},
                                                  {"output_typedesc_id", UUID_FIELD, NULL, NULL},
                                                  {"output_typedesc", BYTES_FIELD, NULL, NULL},
                                                  END};
static const struct field state_fields[] = {
    {"typedesc_id", UUID_FIELD, NULL, NULL}, {"typedesc", BYTES_FIELD, NULL, NULL}, END};
static const struct field data_fields[] = {
    {"num_data", NUMBER, NULL, NULL}, {"data", BYTES_FIELD, NULL, NULL}, END};
static const struct field parameter_fields[] = {
    {"name", BYTES_FIELD, NULL, NULL}, {"value", BYTES_FIELD, NULL, NULL}, END};
static const struct field no_fields[] = {END};
static const struct field handshake_fields[] = {{"major_ver", NUMBER, NULL, NULL},
                                                {"minor_ver", NUMBER, NULL, NULL},
                                                {"params", RUN, text_pair, NULL},
                                                {"extensions", RUN, extension, NULL},
                                                END};

static const struct layout layouts[] = {
    {SERVER, 'E', "ErrorResponse", error_fields},
    {SERVER, 'L', "LogMessage", log_fields},
    {SERVER, 'Z', "ReadyForCommand", ready_fields},
    {SERVER, 'C', "CommandComplete", complete_fields},
    {SERVER, 'T', "CommandDataDescription", description_fields},
    {SERVER, 's', "StateDataDescription", state_fields},
    {SERVER, 'D', "Data", data_fields},
    {SERVER, 'S', "ParameterStatus", parameter_fields},
    {CLIENT, 'S', "Sync", no_fields},
    {CLIENT, 'V', "ClientHandshake", handshake_fields},
};

const struct layout *layout_of(uint32_t side, uint8_t type) {
    for (size_t i = 0; i < sizeof layouts / sizeof layouts[0]; i++)
        if (layouts[i].side == side && layouts[i].type == type)
            return &layouts[i];
    return NULL;
}
