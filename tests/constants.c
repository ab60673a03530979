/*
 * The constants of the header against the library: what is at a limit is taken, and what is beyond
 * it is refused with the number that the header gives; each place has what it is named for.
 */
#include "rabtunex.h"

#include <stdio.h>
#include <stdlib.h>
#include <string.h>

static unsigned checks;

static void check(int right, const char *what, int line)
{
    checks++;
    if (!right) {
        fprintf(stderr, "constants.c:%d: %s\n", line, what);
        exit(EXIT_FAILURE);
    }
}
#define CHECK(test) check(test, #test, __LINE__)

/* One template more than a book may have, and each one byte longer. */
#define TOO_MANY (RABTUNEX_TEMPLATES_MAX + 1)
#define TOO_LONG (RABTUNEX_TEMPLATE_MAX + 1)

#define PRINTER 7
#define CONTROLLER 2

/* Calls of the controller by FCB, as a download has them. */
#define CALL_0 (RABTUNEX_FC_CALL | RABTUNEX_FC_FCV | RABTUNEX_FC_SRD_LOW)
#define CALL_1 (CALL_0 | RABTUNEX_FC_FCB)

/* What is lent where the content does not matter, and room for all that is written. */
static const uint8_t zeros[TOO_MANY * TOO_LONG];
static uint8_t out[RABTUNEX_BOOK_MAX];
static size_t stored;

/* The printer, and its diagnosis without a block. */
static uint8_t state[RABTUNEX_PRINTER_STATE];
static uint8_t lengths[RABTUNEX_SLOTS];
static uint8_t bodies[RABTUNEX_SLOT_BYTES];
static uint8_t reply[RABTUNEX_TELEGRAM_MAX];
static const uint8_t diagnosis[RABTUNEX_FIRST_BLOCK] = {0, 4, 0, RABTUNEX_NO_MASTER, 0, 0};

/* Writes a telegram to the printer with one field as given. */
static uint8_t telegram(size_t place, uint8_t value, size_t user_len)
{
    uint8_t fields[RABTUNEX_FIELDS] = {
        RABTUNEX_SD2,    PRINTER,         CONTROLLER, RABTUNEX_FC_DATA_LOW,
        RABTUNEX_NO_SAP, RABTUNEX_NO_SAP, 0,          0};
    fields[place] = value;
    return rabtunex_write_telegram(fields, zeros, user_len, out, sizeof out, &stored);
}

static void telegrams(void)
{
    CHECK(telegram(RABTUNEX_DA, 0, RABTUNEX_USER_MAX) == 0);
    CHECK(stored == RABTUNEX_TELEGRAM_MAX);
    CHECK(telegram(RABTUNEX_DA, 0, RABTUNEX_USER_MAX + 1) == RABTUNEX_REFUSED_FIELD);
    CHECK(telegram(RABTUNEX_DSAP, 0, RABTUNEX_USER_MAX - 1) == 0);
    CHECK(telegram(RABTUNEX_DSAP, 0, RABTUNEX_USER_MAX) == RABTUNEX_REFUSED_FIELD);
    CHECK(telegram(RABTUNEX_SA, RABTUNEX_ADDRESS_MAX, 1) == 0);
    CHECK(telegram(RABTUNEX_SA, RABTUNEX_ADDRESS_MAX + 1, 1) == RABTUNEX_REFUSED_FIELD);
    CHECK(telegram(RABTUNEX_DA, RABTUNEX_BROADCAST, 1) == 0);
    CHECK(telegram(RABTUNEX_DA, RABTUNEX_BROADCAST + 1, 1) == RABTUNEX_REFUSED_FIELD);
    CHECK(telegram(RABTUNEX_SSAP, RABTUNEX_SAP_MAX, 1) == 0);
    CHECK(telegram(RABTUNEX_SSAP, RABTUNEX_SAP_MAX + 1, 1) == RABTUNEX_REFUSED_FIELD);
}

/* Whether bytes are a telegram of this kind. */
static int is_kind(uint8_t kind, const uint8_t *bytes, size_t count)
{
    uint8_t fields[RABTUNEX_FIELDS];
    return rabtunex_read_telegram(bytes, count, fields) == 0 && fields[RABTUNEX_KIND] == kind;
}

static void telegram_places(void)
{
    static const uint8_t confirmation[] = {0xE5};
    static const uint8_t token[] = {0xDC, 3, 2};
    static const uint8_t sd1[] = {0x10, 7, 2, 0x49, 0x52, 0x16};
    static const uint8_t sd3[] = {0xA2, 7, 2, 0x6D, 0, 0, 0, 0, 0, 0, 0, 0, 0x76, 0x16};
    static const uint8_t call[] = {0x68, 6, 6, 0x68, 0x87, 0x82, 0x5C, 60, 62, 0, 0xDF, 0x16};
    uint8_t fields[RABTUNEX_FIELDS];
    CHECK(is_kind(RABTUNEX_SC, confirmation, sizeof confirmation));
    CHECK(is_kind(RABTUNEX_TOKEN, token, sizeof token));
    CHECK(is_kind(RABTUNEX_SD1, sd1, sizeof sd1));
    CHECK(is_kind(RABTUNEX_SD2, call, sizeof call));
    CHECK(is_kind(RABTUNEX_SD3, sd3, sizeof sd3));
    CHECK(rabtunex_read_telegram(call, sizeof call, fields) == 0);
    CHECK(fields[RABTUNEX_DA] == 7 && fields[RABTUNEX_SA] == 2 && fields[RABTUNEX_FC] == CALL_0);
    CHECK(fields[RABTUNEX_DSAP] == 60 && fields[RABTUNEX_SSAP] == 62);
    CHECK(fields[RABTUNEX_START] == 9 && fields[RABTUNEX_LEN] == 1);
}

/* Writes a call of a service to the printer. */
static uint8_t call(uint8_t service, unsigned fc, const uint8_t own[4], size_t part_len)
{
    uint8_t fields[RABTUNEX_SERVICE_FIELDS] = {0};
    fields[RABTUNEX_SERVICE] = service;
    fields[RABTUNEX_WAY] = RABTUNEX_CALL;
    fields[RABTUNEX_SERVICE_KIND] = RABTUNEX_SD2;
    fields[RABTUNEX_SERVICE_DA] = PRINTER;
    fields[RABTUNEX_SERVICE_SA] = CONTROLLER;
    fields[RABTUNEX_SERVICE_FC] = (uint8_t)fc;
    memcpy(fields + RABTUNEX_SERVICE_BYTES, own, 4);
    return rabtunex_write_service(fields, RABTUNEX_VERSION_DPV0, zeros, part_len, out, sizeof out,
                                  &stored);
}

/* A call goes to the SAP that is the service's number. Since they go up, no two are the same. */
static void services(void)
{
    static const uint8_t numbers[] = {
        RABTUNEX_DPV1,       RABTUNEX_EXT_USER_PRM, RABTUNEX_SET_SLAVE_ADR,
        RABTUNEX_RD_INP,     RABTUNEX_RD_OUTP,      RABTUNEX_GET_CFG,
        RABTUNEX_SLAVE_DIAG, RABTUNEX_SET_PRM,      RABTUNEX_CHK_CFG,
    };
    static const uint8_t least[4] = {0, 0, 0, RABTUNEX_RESPONSE_MIN};
    static const uint8_t too_little[4] = {0, 0, 0, RABTUNEX_RESPONSE_MIN - 1};
    uint8_t fields[RABTUNEX_FIELDS];
    for (size_t at = 0; at < sizeof numbers; at++) {
        const uint8_t *own = numbers[at] == RABTUNEX_SET_PRM ? least : zeros;
        size_t data = numbers[at] == RABTUNEX_CHK_CFG;
        CHECK(at == 0 || numbers[at - 1] < numbers[at]);
        CHECK(call(numbers[at], CALL_0, own, data) == 0);
        CHECK(rabtunex_read_telegram(out, stored, fields) == 0);
        CHECK(fields[RABTUNEX_DSAP] == numbers[at]);
    }
    CHECK(call(RABTUNEX_SET_PRM, CALL_0, least, 0) == 0);
    CHECK(rabtunex_read_telegram(out, stored, fields) == 0);
    CHECK(fields[RABTUNEX_LEN] == 7);
    CHECK(call(RABTUNEX_SET_PRM, CALL_0, too_little, 0) == RABTUNEX_REFUSED_BITS);
    CHECK(call(RABTUNEX_GLOBAL_CONTROL, CALL_0, zeros, 0) == RABTUNEX_REFUSED_SERVICE);
    CHECK(call(RABTUNEX_GLOBAL_CONTROL, RABTUNEX_FC_CALL | RABTUNEX_FC_SDN_LOW, zeros, 0) == 0);
    CHECK(call(RABTUNEX_GLOBAL_CONTROL, RABTUNEX_FC_CALL | RABTUNEX_FC_SDN_HIGH, zeros, 0) == 0);
    CHECK(rabtunex_read_telegram(out, stored, fields) == 0);
    CHECK(fields[RABTUNEX_DSAP] == RABTUNEX_GLOBAL_CONTROL);
    CHECK(call(RABTUNEX_DATA_EXCHANGE, CALL_0, zeros, RABTUNEX_DATA_MAX) == 0);
    CHECK(rabtunex_read_telegram(out, stored, fields) == 0);
    CHECK(fields[RABTUNEX_DSAP] == RABTUNEX_NO_SAP);
    CHECK(call(RABTUNEX_DATA_EXCHANGE, CALL_0, zeros, RABTUNEX_DATA_MAX + 1) ==
          RABTUNEX_REFUSED_DATA_LENGTH);
}

static void service_places(void)
{
    static const uint8_t write[4] = {RABTUNEX_DPV1_WRITE, 3, 4, 5};
    uint8_t fields[RABTUNEX_SERVICE_FIELDS];
    CHECK(call(RABTUNEX_DPV1, CALL_1, write, 5) == 0);
    CHECK(rabtunex_read_service(out, stored, RABTUNEX_VERSION_DPV1, fields) == 0);
    CHECK(fields[RABTUNEX_SERVICE] == RABTUNEX_DPV1 && fields[RABTUNEX_WAY] == RABTUNEX_CALL);
    CHECK(fields[RABTUNEX_SERVICE_KIND] == RABTUNEX_SD2);
    CHECK(fields[RABTUNEX_SERVICE_DA] == PRINTER && fields[RABTUNEX_SERVICE_SA] == CONTROLLER);
    CHECK(fields[RABTUNEX_SERVICE_FC] == 0x7C);
    CHECK(fields[RABTUNEX_PART_START] == 13 && fields[RABTUNEX_PART_LEN] == 5);
    CHECK(fields[RABTUNEX_SERVICE_BYTES] == 0x5F && fields[RABTUNEX_SERVICE_BYTES + 1] == 3);
    CHECK(rabtunex_read_service(out, stored, RABTUNEX_VERSION_DPV1 + 1, fields) ==
          RABTUNEX_REFUSED_FIELD);
}

/* Document 01's diagnosis of one channel block, and behind it blocks of the other kinds. */
static void diagnosis_places(void)
{
    uint8_t bytes[] = {0x08, 0x0C, 0x80, 2,    0x12, 0x34, 0x82, 0x43, 0x26,
                       0x03, 1,    2,    0x43, 0x34, 0,    0x42, 0};
    size_t fields[RABTUNEX_DIAGNOSIS_FIELDS];
    size_t block[RABTUNEX_BLOCK_FIELDS];
    size_t at = RABTUNEX_FIRST_BLOCK;
    CHECK(rabtunex_read_diagnosis(bytes, sizeof bytes, fields) == 0);
    CHECK(fields[RABTUNEX_STATUS1] == 0x08 && fields[RABTUNEX_STATUS2] == 0x0C);
    CHECK(fields[RABTUNEX_STATUS3] == 0x80 && fields[RABTUNEX_MASTER] == 2);
    CHECK(fields[RABTUNEX_IDENT] == 0x1234 && fields[RABTUNEX_BLOCKS] == 4);
    CHECK(rabtunex_next_block(bytes, sizeof bytes, &at, block) == 0);
    CHECK(block[RABTUNEX_BLOCK_KIND] == RABTUNEX_CHANNEL_BLOCK);
    CHECK(block[RABTUNEX_CHANNEL_MODULE] == 2 && block[RABTUNEX_CHANNEL_NUMBER] == 3);
    CHECK(block[RABTUNEX_CHANNEL_DIRECTION] == RABTUNEX_INPUT);
    CHECK(block[RABTUNEX_CHANNEL_TYPE] == RABTUNEX_BIT);
    CHECK(block[RABTUNEX_CHANNEL_ERROR] == RABTUNEX_WIRE_BREAK);
    CHECK(rabtunex_next_block(bytes, sizeof bytes, &at, block) == 0);
    CHECK(block[RABTUNEX_BLOCK_KIND] == RABTUNEX_DEVICE_BLOCK);
    CHECK(block[RABTUNEX_BLOCK_START] == 10 && block[RABTUNEX_BLOCK_LEN] == 2);
    CHECK(rabtunex_next_block(bytes, sizeof bytes, &at, block) == 0);
    CHECK(block[RABTUNEX_BLOCK_KIND] == RABTUNEX_MODULE_BLOCK);
    CHECK(block[RABTUNEX_MAP_SET] == 3 && block[RABTUNEX_MAP_LOWEST] == 2);
    CHECK(rabtunex_next_block(bytes, sizeof bytes, &at, block) == 0);
    CHECK(block[RABTUNEX_MAP_LOWEST] == RABTUNEX_NO_MODULE);
    CHECK(rabtunex_next_block(bytes, sizeof bytes, &at, block) == 0);
    CHECK(block[RABTUNEX_BLOCK_KIND] == RABTUNEX_BLOCKS_END);
    at = RABTUNEX_FIRST_BLOCK - 1;
    CHECK(rabtunex_next_block(bytes, sizeof bytes, &at, block) == RABTUNEX_REFUSED_FIELD);
    bytes[RABTUNEX_MASTER] = RABTUNEX_NO_MASTER;
    CHECK(rabtunex_read_diagnosis(bytes, sizeof bytes, fields) == 0);
    bytes[RABTUNEX_MASTER] = RABTUNEX_NO_MASTER - 1;
    CHECK(rabtunex_read_diagnosis(bytes, sizeof bytes, fields) == RABTUNEX_REFUSED_BITS);
}

/* Whether numbers follow one another. */
static int consecutive(const uint8_t *numbers, size_t count)
{
    for (size_t at = 1; at < count; at++) {
        if (numbers[at] != numbers[at - 1] + 1) {
            return 0;
        }
    }
    return 1;
}

static void channel_codes(void)
{
    static const uint8_t directions[] = {RABTUNEX_INPUT, RABTUNEX_OUTPUT, RABTUNEX_INPUT_OUTPUT};
    static const uint8_t types[] = {RABTUNEX_BIT,  RABTUNEX_TWO_BITS, RABTUNEX_FOUR_BITS,
                                    RABTUNEX_BYTE, RABTUNEX_WORD,     RABTUNEX_TWO_WORDS};
    static const uint8_t errors[] = {
        RABTUNEX_SHORT_CIRCUIT, RABTUNEX_UNDERVOLTAGE,    RABTUNEX_OVERVOLTAGE,
        RABTUNEX_OVERLOAD,      RABTUNEX_OVERTEMPERATURE, RABTUNEX_WIRE_BREAK,
        RABTUNEX_UPPER_LIMIT,   RABTUNEX_LOWER_LIMIT,     RABTUNEX_CHANNEL_FAULT,
    };
    CHECK(consecutive(directions, sizeof directions));
    CHECK(consecutive(types, sizeof types));
    CHECK(consecutive(errors, sizeof errors));
    CHECK(RABTUNEX_VENDOR_ERROR_MAX == 0x1F);
}

/* Every pair of bytes behind the header of a channel block. */
static void channels(void)
{
    uint8_t bytes[RABTUNEX_FIRST_BLOCK + 3] = {0};
    size_t block[RABTUNEX_BLOCK_FIELDS];
    bytes[RABTUNEX_FIRST_BLOCK] = 0x80;
    for (unsigned pair = 0; pair <= 0xFFFF; pair++) {
        unsigned direction = pair >> 14;
        unsigned type = pair >> 5 & 7;
        unsigned error = pair & 31;
        int right = RABTUNEX_INPUT <= direction && direction <= RABTUNEX_INPUT_OUTPUT &&
                    RABTUNEX_BIT <= type && type <= RABTUNEX_TWO_WORDS &&
                    ((RABTUNEX_SHORT_CIRCUIT <= error && error <= RABTUNEX_CHANNEL_FAULT) ||
                     (RABTUNEX_VENDOR_ERROR_MIN <= error && error <= RABTUNEX_VENDOR_ERROR_MAX));
        size_t position = RABTUNEX_FIRST_BLOCK;
        bytes[RABTUNEX_FIRST_BLOCK + 1] = (uint8_t)(pair >> 8);
        bytes[RABTUNEX_FIRST_BLOCK + 2] = (uint8_t)pair;
        CHECK(rabtunex_next_block(bytes, sizeof bytes, &position, block) ==
              (right ? 0 : RABTUNEX_REFUSED_CHANNEL_CODE));
        CHECK(!right ||
              (block[RABTUNEX_BLOCK_KIND] == RABTUNEX_CHANNEL_BLOCK &&
               block[RABTUNEX_CHANNEL_DIRECTION] == direction &&
               block[RABTUNEX_CHANNEL_TYPE] == type && block[RABTUNEX_CHANNEL_ERROR] == error));
    }
}

static void configuration(void)
{
    static const uint8_t three_in_five_out[] = {0x12, 0x24};
    static uint16_t inputs[RABTUNEX_MODULES_MAX];
    static uint16_t outputs[RABTUNEX_MODULES_MAX];
    size_t totals[RABTUNEX_TOTALS];
    CHECK(rabtunex_configuration_offsets(zeros, RABTUNEX_MODULES_MAX, inputs, RABTUNEX_MODULES_MAX,
                                         outputs, RABTUNEX_MODULES_MAX, totals) == 0);
    CHECK(totals[RABTUNEX_TOTAL_MODULES] == RABTUNEX_MODULES_MAX);
    CHECK(rabtunex_configuration_offsets(three_in_five_out, 2, inputs, 2, outputs, 2, totals) == 0);
    CHECK(totals[RABTUNEX_TOTAL_INPUTS] == 3 && totals[RABTUNEX_TOTAL_OUTPUTS] == 5);
    CHECK(rabtunex_configuration_offsets(zeros, RABTUNEX_MODULES_MAX + 1, inputs,
                                         RABTUNEX_MODULES_MAX, outputs, RABTUNEX_MODULES_MAX,
                                         totals) == RABTUNEX_REFUSED_DATA_LENGTH);
}

/* Reads a call: whether it has this number, and what stands in its fields. */
static int is_call(uint8_t number, const uint8_t *bytes, size_t count,
                   uint8_t fields[RABTUNEX_DPV1_FIELDS])
{
    return rabtunex_read_dpv1_call(bytes, count, fields) == 0 &&
           fields[RABTUNEX_DPV1_NUMBER] == number;
}

static void dpv1_places(void)
{
    static const uint8_t read[] = {0x5E, 3, 4, 5};
    static const uint8_t write[] = {0x5F, 3, 4, 1, 9};
    static const uint8_t acknowledgement[] = {0x5C, 3, 1, 2};
    static const uint8_t idle[] = {0x48};
    static const uint8_t transport[] = {0x51, 3, 4, 1, 9};
    static const uint8_t negative[] = {0xDF, 128, 0xB6, 9};
    uint8_t fields[RABTUNEX_DPV1_FIELDS];
    CHECK(is_call(RABTUNEX_DPV1_READ, read, sizeof read, fields));
    CHECK(fields[RABTUNEX_DPV1_SLOT] == 3 && fields[RABTUNEX_DPV1_INDEX] == 4);
    CHECK(fields[RABTUNEX_DPV1_LENGTH] == 5);
    CHECK(is_call(RABTUNEX_DPV1_WRITE, write, sizeof write, fields));
    CHECK(fields[RABTUNEX_DPV1_START] == 4 && fields[RABTUNEX_DPV1_LEN] == 1);
    CHECK(is_call(RABTUNEX_DPV1_ALARM_ACK, acknowledgement, sizeof acknowledgement, fields));
    CHECK(fields[RABTUNEX_DPV1_ALARM] == 1 && fields[RABTUNEX_DPV1_SPECIFIER] == 2);
    CHECK(is_call(RABTUNEX_DPV1_IDLE, idle, sizeof idle, fields));
    CHECK(is_call(RABTUNEX_DPV1_TRANSPORT, transport, sizeof transport, fields));
    CHECK(is_call(RABTUNEX_DPV1_POLL, zeros, 0, fields));
    CHECK(rabtunex_read_dpv1_answer(negative, sizeof negative, fields) == 0);
    CHECK(fields[RABTUNEX_DPV1_CODE1] == RABTUNEX_CODE1_DENIED && fields[RABTUNEX_DPV1_CODE2] == 9);
}

static void dpv1(void)
{
    static const uint8_t write[RABTUNEX_DPV1_FIELDS] = {RABTUNEX_DPV1_WRITE, 0, 0, 0, 0, 0};
    uint8_t fields[RABTUNEX_DPV1_FIELDS];
    CHECK(rabtunex_write_dpv1_call(write, zeros, RABTUNEX_DPV1_DATA_MAX, out, sizeof out,
                                   &stored) == 0);
    CHECK(stored == RABTUNEX_DPV1_MAX);
    CHECK(rabtunex_write_dpv1_call(write, zeros, RABTUNEX_DPV1_DATA_MAX + 1, out, sizeof out,
                                   &stored) == RABTUNEX_REFUSED_DATA_LENGTH);
    for (unsigned decode = 0; decode <= 255; decode++) {
        uint8_t answer[] = {RABTUNEX_DPV1_NEGATIVE + RABTUNEX_DPV1_WRITE, (uint8_t)decode,
                            RABTUNEX_CODE1_DENIED, 0};
        int known = decode == RABTUNEX_DECODE_DP || decode == RABTUNEX_DECODE_FMS ||
                    decode == RABTUNEX_DECODE_HART;
        CHECK(rabtunex_read_dpv1_answer(answer, sizeof answer, fields) ==
              (known ? 0 : RABTUNEX_REFUSED_BITS));
    }
}

/* Writes a book of so many templates, all so long. */
static uint8_t book(size_t count, uint8_t length)
{
    uint8_t slots[TOO_MANY];
    uint8_t all[TOO_MANY];
    for (size_t k = 0; k < count; k++) {
        slots[k] = (uint8_t)k;
        all[k] = length;
    }
    return rabtunex_write_book(slots, count, all, count, zeros, count * length, out, sizeof out,
                               &stored);
}

static void books(void)
{
    size_t fields[RABTUNEX_TEMPLATE_FIELDS];
    CHECK(book(0, RABTUNEX_TEMPLATE_MAX) == RABTUNEX_REFUSED_BOOK_TABLE);
    CHECK(book(1, RABTUNEX_TEMPLATE_MIN - 1) == RABTUNEX_REFUSED_BOOK_TABLE);
    CHECK(book(1, RABTUNEX_TEMPLATE_MIN) == 0);
    CHECK(book(1, TOO_LONG) == RABTUNEX_REFUSED_BOOK_TABLE);
    CHECK(book(TOO_MANY, RABTUNEX_TEMPLATE_MIN) == RABTUNEX_REFUSED_BOOK_TABLE);
    CHECK(book(RABTUNEX_TEMPLATES_MAX, RABTUNEX_TEMPLATE_MAX) == 0);
    CHECK(stored == RABTUNEX_BOOK_MAX);
    CHECK(rabtunex_book_template(out, stored, 2, fields) == 0);
    CHECK(fields[RABTUNEX_TEMPLATE_SLOT] == 1 && fields[RABTUNEX_TEMPLATE_START] == 233);
    CHECK(fields[RABTUNEX_TEMPLATE_LEN] == RABTUNEX_TEMPLATE_MAX);
}

/* The first step of a download of the longest book, with one setting as given. */
static uint8_t first_step(size_t place, uint8_t value)
{
    uint8_t settings[RABTUNEX_SETTINGS] = {PRINTER, CONTROLLER, 0, RABTUNEX_POLLS_MIN};
    uint8_t fresh[RABTUNEX_CONTROLLER_STATE] = {0};
    uint8_t ending[RABTUNEX_ENDING];
    uint8_t request[RABTUNEX_TELEGRAM_MAX];
    uint8_t fields[RABTUNEX_FIELDS];
    uint8_t refused;
    size_t sent;
    settings[place] = value;
    refused = rabtunex_controller_step(settings, out, RABTUNEX_BOOK_MAX, fresh, zeros, 0, request,
                                       sizeof request, &sent, ending);
    if (refused == 0) {
        CHECK(ending[RABTUNEX_ENDING_KIND] == RABTUNEX_GOES_ON);
        CHECK(fresh[RABTUNEX_SENT] == RABTUNEX_SENT_OPENING);
        CHECK(rabtunex_read_telegram(request, sent, fields) == 0);
        CHECK(fields[RABTUNEX_FC] == (RABTUNEX_FC_CALL | RABTUNEX_FC_FCB | RABTUNEX_FC_SRD_HIGH));
        CHECK(fields[RABTUNEX_DA] == settings[RABTUNEX_SET_PRINTER]);
        CHECK(fields[RABTUNEX_SA] == settings[RABTUNEX_SET_CONTROLLER]);
    }
    return refused;
}

static void settings(void)
{
    CHECK(book(RABTUNEX_TEMPLATES_MAX, RABTUNEX_TEMPLATE_MAX) == 0);
    CHECK(first_step(RABTUNEX_SET_PRINTER, RABTUNEX_ADDRESS_MAX) == 0);
    CHECK(first_step(RABTUNEX_SET_PRINTER, RABTUNEX_ADDRESS_MAX + 1) == RABTUNEX_REFUSED_FIELD);
    CHECK(first_step(RABTUNEX_SET_CONTROLLER, RABTUNEX_ADDRESS_MAX) == 0);
    CHECK(first_step(RABTUNEX_SET_CONTROLLER, RABTUNEX_ADDRESS_MAX + 1) == RABTUNEX_REFUSED_FIELD);
    CHECK(first_step(RABTUNEX_SET_CONTROLLER, PRINTER) == RABTUNEX_REFUSED_FIELD);
    CHECK(first_step(RABTUNEX_SET_REPEATS, RABTUNEX_REPEATS_MAX) == 0);
    CHECK(first_step(RABTUNEX_SET_REPEATS, RABTUNEX_REPEATS_MAX + 1) == RABTUNEX_REFUSED_FIELD);
    CHECK(first_step(RABTUNEX_SET_POLLS, RABTUNEX_POLLS_MIN - 1) == RABTUNEX_REFUSED_FIELD);
    CHECK(first_step(RABTUNEX_SET_POLLS, RABTUNEX_POLLS_MAX) == 0);
    CHECK(first_step(RABTUNEX_SET_POLLS, RABTUNEX_POLLS_MAX + 1) == RABTUNEX_REFUSED_FIELD);
}

static void fresh_printer(uint8_t boarding)
{
    memset(state, 0, sizeof state);
    state[RABTUNEX_PRINTER_ADDRESS] = PRINTER;
    state[RABTUNEX_PRINTER_BOARDING] = boarding;
    state[RABTUNEX_PRINTER_SA] = RABTUNEX_NOBODY;
}

/* A download of the longest book to a fresh printer, with all results as late as may be. */
static uint8_t download(const uint8_t *line, size_t line_len, uint8_t ending[RABTUNEX_ENDING],
                        size_t *sendings)
{
    static const uint8_t most[RABTUNEX_SETTINGS] = {PRINTER, CONTROLLER, RABTUNEX_REPEATS_MAX,
                                                    RABTUNEX_POLLS_MAX};
    static uint8_t request[RABTUNEX_TELEGRAM_MAX];
    uint8_t not_yet[RABTUNEX_TEMPLATES_MAX];
    memset(not_yet, RABTUNEX_POLLS_MAX - 1, sizeof not_yet);
    CHECK(book(RABTUNEX_TEMPLATES_MAX, RABTUNEX_TEMPLATE_MAX) == 0);
    fresh_printer(0);
    return rabtunex_download(most, out, stored, line, line_len, not_yet, sizeof not_yet, diagnosis,
                             sizeof diagnosis, state, lengths, bodies, reply, sizeof reply, request,
                             sizeof request, ending, sendings);
}

/* The longest of all: every request is answered at its last sending only. Then the opening alone,
 * which the printer has heard where only the reply was lost. */
static void sendings(void)
{
    static uint8_t line[RABTUNEX_SENDINGS_MAX];
    uint8_t ending[RABTUNEX_ENDING];
    size_t sent;
    for (size_t at = 0; at < sizeof line; at++) {
        line[at] = at % (RABTUNEX_REPEATS_MAX + 1) == 0 ? RABTUNEX_THROUGH : RABTUNEX_REPLY_LOST;
    }
    CHECK(download(line, sizeof line, ending, &sent) == 0);
    CHECK(ending[RABTUNEX_ENDING_KIND] == RABTUNEX_ENDED_DONE && sent == RABTUNEX_SENDINGS_MAX);
    line[0] = RABTUNEX_REPLY_LOST;
    CHECK(download(line, 1, ending, &sent) == 0);
    CHECK(ending[RABTUNEX_ENDING_KIND] == RABTUNEX_ENDED_NO_OPENING && sent == 1);
    CHECK(state[RABTUNEX_PRINTER_SA] == CONTROLLER);
    line[0] = RABTUNEX_REQUEST_LOST;
    CHECK(download(line, 1, ending, &sent) == 0);
    CHECK(ending[RABTUNEX_ENDING_KIND] == RABTUNEX_ENDED_NO_OPENING && sent == 1);
    CHECK(state[RABTUNEX_PRINTER_SA] == RABTUNEX_NOBODY);
    line[0] = RABTUNEX_REPLY_LOST + 1;
    CHECK(download(line, 1, ending, &sent) == RABTUNEX_REFUSED_FIELD);
}

/* Lets the printer hear what stands in out: how much it answers. */
static size_t heard(void)
{
    size_t sent;
    CHECK(rabtunex_printer_step(state, out, stored, diagnosis, sizeof diagnosis, 0, lengths, bodies,
                                reply, sizeof reply, &sent) == 0);
    return sent;
}

/* The function code of its bare answer. */
static uint8_t bare_answer(void)
{
    uint8_t fields[RABTUNEX_FIELDS];
    CHECK(rabtunex_read_telegram(reply, heard(), fields) == 0);
    CHECK(fields[RABTUNEX_KIND] == RABTUNEX_SD1);
    return fields[RABTUNEX_FC];
}

/* Code 1 for which a write is refused, or 0. */
static uint8_t code1_of(uint8_t boarding, uint8_t slot, uint8_t index, size_t length)
{
    const uint8_t write[4] = {RABTUNEX_DPV1_WRITE, slot, index, 0};
    uint8_t fields[RABTUNEX_SERVICE_FIELDS];
    const uint8_t *own = fields + RABTUNEX_SERVICE_BYTES;
    fresh_printer(boarding);
    CHECK(call(RABTUNEX_DPV1, CALL_0, write, length) == 0);
    CHECK(heard() == 1);
    CHECK(call(RABTUNEX_DPV1, CALL_1, zeros, 0) == 0);
    CHECK(rabtunex_read_service(reply, heard(), RABTUNEX_VERSION_DPV1, fields) == 0);
    CHECK(fields[RABTUNEX_WAY] == RABTUNEX_ANSWER);
    CHECK(fields[RABTUNEX_SERVICE_FC] == RABTUNEX_FC_DATA_LOW);
    if (own[RABTUNEX_DPV1_NUMBER] == RABTUNEX_DPV1_WRITE) {
        return 0;
    }
    CHECK(own[RABTUNEX_DPV1_NUMBER] == RABTUNEX_DPV1_NEGATIVE + RABTUNEX_DPV1_WRITE);
    CHECK(own[RABTUNEX_DPV1_DECODE] == RABTUNEX_DECODE_DP);
    CHECK(own[RABTUNEX_DPV1_CODE2] == 0);
    return own[RABTUNEX_DPV1_CODE1];
}

static void printer(void)
{
    const uint8_t slot = RABTUNEX_TEMPLATES_SLOT;
    const uint8_t write[4] = {RABTUNEX_DPV1_WRITE, RABTUNEX_TEMPLATES_SLOT, 0, 0};
    const uint8_t no_number[RABTUNEX_FIELDS] = {RABTUNEX_SD2,  PRINTER,       CONTROLLER, CALL_1,
                                                RABTUNEX_DPV1, RABTUNEX_DPV1, 0,          0};
    CHECK(code1_of(0, slot, RABTUNEX_SLOTS - 1, RABTUNEX_TEMPLATE_MAX) == 0);
    CHECK(code1_of(0, slot, RABTUNEX_SLOTS, 1) == RABTUNEX_CODE1_INDEX);
    CHECK(code1_of(0, slot, 0, TOO_LONG) == RABTUNEX_CODE1_LENGTH);
    CHECK(code1_of(0, slot + 1, 0, 1) == RABTUNEX_CODE1_SLOT);
    CHECK(code1_of(0, slot, RABTUNEX_GUARDED_SLOT, 1) == 0);
    CHECK(code1_of(1, slot, RABTUNEX_GUARDED_SLOT, 1) == RABTUNEX_CODE1_DENIED);
    CHECK(code1_of(1, slot, RABTUNEX_GUARDED_SLOT - 1, 1) == 0);

    CHECK(telegram(RABTUNEX_FC, RABTUNEX_FC_CALL | RABTUNEX_FC_FDL_STATUS, 1) == 0);
    CHECK(bare_answer() == RABTUNEX_FC_OK);
    CHECK(call(RABTUNEX_RD_INP, CALL_0, zeros, 0) == 0);
    CHECK(bare_answer() == RABTUNEX_FC_RS);
    CHECK(call(RABTUNEX_DPV1, CALL_1, write, 1) == 0);
    CHECK(heard() == 1);
    CHECK(call(RABTUNEX_DPV1, CALL_0, write, 1) == 0);
    CHECK(bare_answer() == RABTUNEX_FC_RR);
    CHECK(rabtunex_write_telegram(no_number, zeros, 1, out, sizeof out, &stored) == 0);
    CHECK(bare_answer() == RABTUNEX_FC_UE);
}

/* What the printer remembers of a write, of one that it refused, and of none. */
static void printer_places(void)
{
    static const uint8_t write[4] = {RABTUNEX_DPV1_WRITE, RABTUNEX_TEMPLATES_SLOT, 4, 0};
    static const uint8_t bad[4] = {RABTUNEX_DPV1_WRITE, RABTUNEX_TEMPLATES_SLOT, 99, 0};
    size_t sent;
    fresh_printer(0);
    CHECK(call(RABTUNEX_DPV1, CALL_1, write, 5) == 0);
    CHECK(rabtunex_printer_step(state, out, stored, diagnosis, sizeof diagnosis, 9, lengths, bodies,
                                reply, sizeof reply, &sent) == 0);
    CHECK(state[RABTUNEX_PRINTER_FCB] == 1 && state[RABTUNEX_PRINTER_SA] == CONTROLLER);
    CHECK(state[RABTUNEX_PRINTER_WRITES] == 1);
    CHECK(state[RABTUNEX_PRINTER_PENDING] == RABTUNEX_PENDING_POSITIVE);
    CHECK(state[RABTUNEX_PRINTER_RESULT] == RABTUNEX_TEMPLATES_SLOT);
    CHECK(state[RABTUNEX_PRINTER_RESULT + 1] == 4 && state[RABTUNEX_PRINTER_RESULT + 2] == 5);
    CHECK(state[RABTUNEX_PRINTER_WAIT] == 9);
    fresh_printer(0);
    CHECK(call(RABTUNEX_DPV1, CALL_1, bad, 5) == 0);
    CHECK(heard() == 1);
    CHECK(state[RABTUNEX_PRINTER_HELD] == 1);
    CHECK(state[RABTUNEX_PRINTER_PENDING] == RABTUNEX_PENDING_NEGATIVE);
    CHECK(state[RABTUNEX_PRINTER_RESULT] == RABTUNEX_CODE1_INDEX);
    CHECK(call(RABTUNEX_DPV1, CALL_0, zeros, 0) == 0);
    CHECK(heard() != 0);
    CHECK(state[RABTUNEX_PRINTER_PENDING] == RABTUNEX_PENDING_NOTHING);
    state[RABTUNEX_PRINTER_PENDING] = RABTUNEX_PENDING_NEGATIVE + 1;
    CHECK(rabtunex_printer_step(state, out, stored, diagnosis, sizeof diagnosis, 0, lengths, bodies,
                                reply, sizeof reply, &sent) == RABTUNEX_REFUSED_FIELD);
}

/* What the controller remembers of an opening, a write and a poll, the printer answering each. */
static void controller_places(void)
{
    static const uint8_t small[] = {1, 4, 1, 'A'};
    static const uint8_t some[RABTUNEX_SETTINGS] = {PRINTER, CONTROLLER, 3, 5};
    static const uint8_t sent[] = {RABTUNEX_SENT_OPENING, RABTUNEX_SENT_WRITE, RABTUNEX_SENT_POLL};
    uint8_t remembered[RABTUNEX_CONTROLLER_STATE] = {RABTUNEX_SENT_NOTHING, 0, 0, 0, 0};
    uint8_t ending[RABTUNEX_ENDING];
    size_t got = 0;
    fresh_printer(0);
    for (size_t at = 0; at < sizeof sent; at++) {
        CHECK(rabtunex_controller_step(some, small, sizeof small, remembered, reply, got, out,
                                       sizeof out, &stored, ending) == 0);
        CHECK(remembered[RABTUNEX_SENT] == sent[at]);
        CHECK(remembered[RABTUNEX_SENT_TEMPLATE] == (at == 0 ? 0 : 1));
        got = heard();
    }
    CHECK(remembered[RABTUNEX_SENT_FCB] == 1);
    CHECK(remembered[RABTUNEX_REPEATS_LEFT] == 3 && remembered[RABTUNEX_POLLS_LEFT] == 4);
    CHECK(rabtunex_controller_step(some, small, sizeof small, remembered, reply, 0, out, sizeof out,
                                   &stored, ending) == 0);
    CHECK(remembered[RABTUNEX_REPEATS_LEFT] == 2 && remembered[RABTUNEX_POLLS_LEFT] == 4);
}

/* A refusal with a code 2, which this library's printer never gives: both codes stand in the ending. */
static void ending_places(void)
{
    static const uint8_t small[] = {1, 4, 1, 'A'};
    static const uint8_t some[RABTUNEX_SETTINGS] = {PRINTER, CONTROLLER, 0, RABTUNEX_POLLS_MIN};
    uint8_t polled[RABTUNEX_CONTROLLER_STATE] = {RABTUNEX_SENT_POLL, 1, 1, 0, 0};
    uint8_t fields[RABTUNEX_SERVICE_FIELDS] = {0};
    uint8_t *own = fields + RABTUNEX_SERVICE_BYTES;
    uint8_t ending[RABTUNEX_ENDING];
    size_t got;
    fields[RABTUNEX_SERVICE] = RABTUNEX_DPV1;
    fields[RABTUNEX_WAY] = RABTUNEX_ANSWER;
    fields[RABTUNEX_SERVICE_KIND] = RABTUNEX_SD2;
    fields[RABTUNEX_SERVICE_DA] = CONTROLLER;
    fields[RABTUNEX_SERVICE_SA] = PRINTER;
    fields[RABTUNEX_SERVICE_FC] = RABTUNEX_FC_DATA_LOW;
    own[RABTUNEX_DPV1_NUMBER] = RABTUNEX_DPV1_NEGATIVE + RABTUNEX_DPV1_WRITE;
    own[RABTUNEX_DPV1_DECODE] = RABTUNEX_DECODE_DP;
    own[RABTUNEX_DPV1_CODE1] = RABTUNEX_CODE1_DENIED;
    own[RABTUNEX_DPV1_CODE2] = 9;
    CHECK(rabtunex_write_service(fields, RABTUNEX_VERSION_DPV0, zeros, 0, reply, sizeof reply,
                                 &got) == 0);
    CHECK(rabtunex_controller_step(some, small, sizeof small, polled, reply, got, out, sizeof out,
                                   &stored, ending) == 0);
    CHECK(ending[RABTUNEX_ENDING_KIND] == RABTUNEX_ENDED_REFUSED);
    CHECK(ending[RABTUNEX_ENDING_TEMPLATE] == 1);
    CHECK(ending[RABTUNEX_ENDING_CODE1] == RABTUNEX_CODE1_DENIED);
    CHECK(ending[RABTUNEX_ENDING_CODE2] == 9);
}

int main(void)
{
    telegrams();
    telegram_places();
    services();
    service_places();
    diagnosis_places();
    channel_codes();
    channels();
    configuration();
    dpv1();
    dpv1_places();
    books();
    settings();
    sendings();
    printer();
    printer_places();
    controller_places();
    ending_places();
    printf("%u checks\n", checks);
    return EXIT_SUCCESS;
}
