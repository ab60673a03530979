/*
 * Rabtunex: PROFIBUS DP telegrams, whole service telegrams, DPV1 calls and answers, and template
 * books, read and written; diagnosis and configuration data, read; and the download of a template
 * book to a printer: the step of each end, and both joined along a line.
 *
 * Every function takes all inputs and returns. It answers 0, or the refusal number of its
 * input's first fault (RABTUNEX_REFUSED_..), and then has stored nothing. Nothing is kept
 * between calls and no memory is taken: every buffer is lent by the caller.
 *
 * What the caller owes, since nothing here can test it: each pointer leads to as many elements as
 * its length says (any pointer where the length is 0, but not a null one), and no two buffers of
 * one call overlap.
 */
#ifndef RABTUNEX_H
#define RABTUNEX_H

#include <stddef.h>
#include <stdint.h>

#ifdef __cplusplus
extern "C" {
#endif

/* Refusal numbers. */
#define RABTUNEX_REFUSED_SHORT 1         /* the bytes end early */
#define RABTUNEX_REFUSED_START 2         /* the first byte is no start byte */
#define RABTUNEX_REFUSED_LENGTH 3        /* LE, LEr or the second SD2 is wrong */
#define RABTUNEX_REFUSED_TRAILING 4      /* bytes follow the telegram or the book */
#define RABTUNEX_REFUSED_END 5           /* the end byte is not 16 hex */
#define RABTUNEX_REFUSED_CHECKSUM 6      /* the checksum is wrong */
#define RABTUNEX_REFUSED_ADDRESS 7       /* an address is out of range */
#define RABTUNEX_REFUSED_FUNCTION_CODE 8 /* the function code is reserved */
#define RABTUNEX_REFUSED_EXTENSION 9     /* a SAP is missing or above 63 */
#define RABTUNEX_REFUSED_SERVICE 10      /* no service, or one that does not go that way */
#define RABTUNEX_REFUSED_ROOM 11         /* the lent output is too small */
#define RABTUNEX_REFUSED_FIELD 12        /* a field or position that was given is out of range */
#define RABTUNEX_REFUSED_DATA_LENGTH 20  /* the length of the service data is wrong */
#define RABTUNEX_REFUSED_BITS 21         /* a fixed bit or a ranged byte is wrong */
#define RABTUNEX_REFUSED_EXT_DIAG 22     /* the Ext_Diag bit and the blocks disagree */
#define RABTUNEX_REFUSED_BLOCK_HEADER 23 /* a block's header is reserved, or its length below 2 */
#define RABTUNEX_REFUSED_PAST_END 24     /* a block or module runs past the data */
#define RABTUNEX_REFUSED_CHANNEL_CODE 25 /* a code of a channel block is reserved */
#define RABTUNEX_REFUSED_VENDOR_COUNT 26 /* a module's vendor count is 15 */
#define RABTUNEX_REFUSED_PROCESS_DATA 27 /* over 244 input or 244 output bytes */
#define RABTUNEX_REFUSED_DPV1 28         /* a DPV1 function number or error code is reserved */
#define RABTUNEX_REFUSED_BOOK_TABLE 32   /* the table of a template book is wrong */

/* The longest telegram: an output of so many bytes is never too small. */
#define RABTUNEX_TELEGRAM_MAX 255

/* The most user data of a telegram. Each SAP takes the place of one of them. */
#define RABTUNEX_USER_MAX 246

/* Addresses: the highest of a station, and the one of a call to all. */
#define RABTUNEX_ADDRESS_MAX 126
#define RABTUNEX_BROADCAST 127

/* The fields of a telegram: an array of RABTUNEX_FIELDS bytes, at these places. */
#define RABTUNEX_FIELDS 8
#define RABTUNEX_KIND 0  /* which telegram: RABTUNEX_SC .. RABTUNEX_SD3 */
#define RABTUNEX_DA 1    /* destination address, its low seven bits */
#define RABTUNEX_SA 2    /* source address, its low seven bits */
#define RABTUNEX_FC 3    /* function code */
#define RABTUNEX_DSAP 4  /* destination SAP, or RABTUNEX_NO_SAP */
#define RABTUNEX_SSAP 5  /* source SAP, or RABTUNEX_NO_SAP */
#define RABTUNEX_START 6 /* where the user data begin in the telegram's bytes */
#define RABTUNEX_LEN 7   /* how many user data bytes there are */

#define RABTUNEX_SAP_MAX 63
#define RABTUNEX_NO_SAP 255

/* Kinds of telegram. A short confirmation has no other field, a token only DA and SA: reading
 * gives the rest as 0, and the SAPs as RABTUNEX_NO_SAP. */
#define RABTUNEX_SC 0
#define RABTUNEX_TOKEN 1
#define RABTUNEX_SD1 2
#define RABTUNEX_SD2 3
#define RABTUNEX_SD3 4

/* Function codes. A call's is RABTUNEX_FC_CALL, with FCB and FCV where they are set, and its
 * function; an answer's is its function, and its station type, 0 for a slave, in bits 4 and 5. */
#define RABTUNEX_FC_CALL 0x40
#define RABTUNEX_FC_FCB 0x20
#define RABTUNEX_FC_FCV 0x10

/* Functions of calls. */
#define RABTUNEX_FC_SDN_LOW 4
#define RABTUNEX_FC_SDN_HIGH 6
#define RABTUNEX_FC_FDL_STATUS 9
#define RABTUNEX_FC_SRD_LOW 12
#define RABTUNEX_FC_SRD_HIGH 13

/* Functions of answers. */
#define RABTUNEX_FC_OK 0       /* bare: acknowledged, or the station is there */
#define RABTUNEX_FC_UE 1       /* bare: user error */
#define RABTUNEX_FC_RR 2       /* bare: no resource */
#define RABTUNEX_FC_RS 3       /* bare: no such service */
#define RABTUNEX_FC_DATA_LOW 8 /* with data */

/* Reads one telegram, which is all of the bytes, into its fields. The user data stay where they
 * are: fields[RABTUNEX_LEN] bytes from bytes + fields[RABTUNEX_START]. */
uint8_t rabtunex_read_telegram(const uint8_t *bytes, size_t bytes_len,
                               uint8_t fields[RABTUNEX_FIELDS]);

/* Writes one telegram from its fields and user data at the front of out, and its length to
 * *stored. RABTUNEX_START and RABTUNEX_LEN are not looked at, nor is any field that the kind does
 * not have, so that fields that were read can be given back as they are. A short confirmation
 * and a token take no user data. A bad field, a bad length of the user data and an unknown kind
 * give RABTUNEX_REFUSED_FIELD. */
uint8_t rabtunex_write_telegram(const uint8_t fields[RABTUNEX_FIELDS], const uint8_t *user,
                                size_t user_len, uint8_t *out, size_t out_len, size_t *stored);

/* The fields of a diagnosis: an array of RABTUNEX_DIAGNOSIS_FIELDS numbers, at these places. */
#define RABTUNEX_DIAGNOSIS_FIELDS 6
#define RABTUNEX_STATUS1 0 /* station status 1 */
#define RABTUNEX_STATUS2 1 /* station status 2 */
#define RABTUNEX_STATUS3 2 /* station status 3 */
#define RABTUNEX_MASTER 3  /* the master's address, or RABTUNEX_NO_MASTER */
#define RABTUNEX_IDENT 4   /* ident number */
#define RABTUNEX_BLOCKS 5  /* how many blocks there are */

#define RABTUNEX_NO_MASTER 255

/* The longest data of a service, of a diagnosis too. */
#define RABTUNEX_DATA_MAX 244

/* Reads one diagnosis, which is all of the bytes, into its fields. Every block is looked at too:
 * no step over the blocks of a diagnosis that was read is refused. */
uint8_t rabtunex_read_diagnosis(const uint8_t *bytes, size_t bytes_len,
                                size_t fields[RABTUNEX_DIAGNOSIS_FIELDS]);

/* A block of a diagnosis: an array of RABTUNEX_BLOCK_FIELDS numbers. The first is its kind; a
 * place that the kind does not name is 0. */
#define RABTUNEX_BLOCK_FIELDS 6
#define RABTUNEX_BLOCK_KIND 0 /* RABTUNEX_BLOCKS_END .. RABTUNEX_CHANNEL_BLOCK */

#define RABTUNEX_BLOCKS_END 0 /* no block: the blocks end at the position */
#define RABTUNEX_DEVICE_BLOCK 1
#define RABTUNEX_MODULE_BLOCK 2
#define RABTUNEX_CHANNEL_BLOCK 3

/* Device and module: where the bytes after the block's header begin in the diagnosis, and how many
 * there are. */
#define RABTUNEX_BLOCK_START 1
#define RABTUNEX_BLOCK_LEN 2

/* Module alone: those bytes are a map, a bit for each module. */
#define RABTUNEX_MAP_SET 3    /* how many modules report */
#define RABTUNEX_MAP_LOWEST 4 /* the lowest that reports, or RABTUNEX_NO_MODULE */

#define RABTUNEX_NO_MODULE 65535

/* Channel. */
#define RABTUNEX_CHANNEL_MODULE 1    /* the module, 0 to 63 */
#define RABTUNEX_CHANNEL_DIRECTION 2 /* RABTUNEX_INPUT .. RABTUNEX_INPUT_OUTPUT */
#define RABTUNEX_CHANNEL_NUMBER 3    /* the channel of the module, 0 to 63 */
#define RABTUNEX_CHANNEL_TYPE 4      /* RABTUNEX_BIT .. RABTUNEX_TWO_WORDS */
#define RABTUNEX_CHANNEL_ERROR 5     /* RABTUNEX_SHORT_CIRCUIT .. _VENDOR_ERROR_MAX */

#define RABTUNEX_INPUT 1
#define RABTUNEX_OUTPUT 2
#define RABTUNEX_INPUT_OUTPUT 3

#define RABTUNEX_BIT 1
#define RABTUNEX_TWO_BITS 2
#define RABTUNEX_FOUR_BITS 3
#define RABTUNEX_BYTE 4
#define RABTUNEX_WORD 5
#define RABTUNEX_TWO_WORDS 6

#define RABTUNEX_SHORT_CIRCUIT 1
#define RABTUNEX_UNDERVOLTAGE 2
#define RABTUNEX_OVERVOLTAGE 3
#define RABTUNEX_OVERLOAD 4
#define RABTUNEX_OVERTEMPERATURE 5
#define RABTUNEX_WIRE_BREAK 6
#define RABTUNEX_UPPER_LIMIT 7
#define RABTUNEX_LOWER_LIMIT 8
#define RABTUNEX_CHANNEL_FAULT 9     /* some error */
#define RABTUNEX_VENDOR_ERROR_MIN 16 /* from here on the maker's own */
#define RABTUNEX_VENDOR_ERROR_MAX 31

/* The position of the first block. */
#define RABTUNEX_FIRST_BLOCK 6

/* Reads the block at *position, and moves *position behind it. At the end of the bytes it stores
 * RABTUNEX_BLOCKS_END and leaves *position. Only the block is looked at, and not the fields of the
 * diagnosis; a position before RABTUNEX_FIRST_BLOCK or past the end gives RABTUNEX_REFUSED_FIELD.
 * All blocks of a diagnosis:
 *
 *     size_t position = RABTUNEX_FIRST_BLOCK;
 *     size_t block[RABTUNEX_BLOCK_FIELDS];
 *     while (rabtunex_next_block(bytes, bytes_len, &position, block) == 0 &&
 *            block[RABTUNEX_BLOCK_KIND] != RABTUNEX_BLOCKS_END) {
 *         show(block);
 *     }
 */
uint8_t rabtunex_next_block(const uint8_t *bytes, size_t bytes_len, size_t *position,
                            size_t block[RABTUNEX_BLOCK_FIELDS]);

/* The most modules of a configuration: lists of so many numbers are never too small. */
#define RABTUNEX_MODULES_MAX 244

/* The totals of a configuration: an array of RABTUNEX_TOTALS numbers, at these places. */
#define RABTUNEX_TOTALS 3
#define RABTUNEX_TOTAL_MODULES 0 /* how many modules there are */
#define RABTUNEX_TOTAL_INPUTS 1  /* how many input bytes they have */
#define RABTUNEX_TOTAL_OUTPUTS 2 /* how many output bytes they have */

/* Reads one configuration, which is all of the bytes, into its totals, and stores where the bytes
 * of each module begin, or would begin where it has none: among the inputs at the front of inputs,
 * and among the outputs at the front of outputs. A list with fewer places than there are modules
 * gives RABTUNEX_REFUSED_ROOM. */
uint8_t rabtunex_configuration_offsets(const uint8_t *bytes, size_t bytes_len, uint16_t *inputs,
                                       size_t inputs_len, uint16_t *outputs, size_t outputs_len,
                                       size_t totals[RABTUNEX_TOTALS]);

/* The most data bytes of a DPV1 call or answer. */
#define RABTUNEX_DPV1_DATA_MAX 240

/* The longest DPV1 call or answer: an output of so many bytes is never too small. */
#define RABTUNEX_DPV1_MAX 244

/* The fields of a DPV1 call or answer: an array of RABTUNEX_DPV1_FIELDS bytes. The first is its
 * number, the last two say where its data are; the three between them are named by the case below,
 * and one that the case does not have is 0. */
#define RABTUNEX_DPV1_FIELDS 6
#define RABTUNEX_DPV1_NUMBER 0 /* RABTUNEX_DPV1_READ .. RABTUNEX_DPV1_POLL */
#define RABTUNEX_DPV1_START 4  /* where the data begin in the bytes */
#define RABTUNEX_DPV1_LEN 5    /* how many data bytes there are */

/* All but idle, poll and negative answers: the slot. */
#define RABTUNEX_DPV1_SLOT 1

/* Read, write and data transport. A read call asks for so many bytes and a write answer says that
 * so many were written; the others have data instead of a length. */
#define RABTUNEX_DPV1_INDEX 2
#define RABTUNEX_DPV1_LENGTH 3 /* 0 to RABTUNEX_DPV1_DATA_MAX */

/* Alarm acknowledgement. */
#define RABTUNEX_DPV1_ALARM 2     /* alarm type */
#define RABTUNEX_DPV1_SPECIFIER 3 /* alarm specifier */

/* Negative answer. */
#define RABTUNEX_DPV1_DECODE 1 /* whose error codes they are: RABTUNEX_DECODE_DP .. _HART */
#define RABTUNEX_DPV1_CODE1 2  /* error code 1 */
#define RABTUNEX_DPV1_CODE2 3  /* error code 2 */

#define RABTUNEX_DECODE_DP 128
#define RABTUNEX_DECODE_FMS 254
#define RABTUNEX_DECODE_HART 255

/* Numbers, as they stand in the first byte. A poll is a call of no bytes, and no answer is one. */
#define RABTUNEX_DPV1_READ 0x5E
#define RABTUNEX_DPV1_WRITE 0x5F
#define RABTUNEX_DPV1_ALARM_ACK 0x5C
#define RABTUNEX_DPV1_IDLE 0x48
#define RABTUNEX_DPV1_TRANSPORT 0x51
#define RABTUNEX_DPV1_POLL 0

/* The number of a negative answer is its function's number with this added; idle has none. Always
 * compare the whole number: a positive write answer is exactly RABTUNEX_DPV1_WRITE, 0x5F, and a
 * negative one exactly RABTUNEX_DPV1_NEGATIVE + RABTUNEX_DPV1_WRITE, 0xDF. Their low seven bits are
 * the same: never compare those alone, or a refused write is taken for one that was performed. */
#define RABTUNEX_DPV1_NEGATIVE 0x80

/* Reads one DPV1 call, which is all of the bytes, into its fields. The data stay where they are:
 * fields[RABTUNEX_DPV1_LEN] bytes from bytes + fields[RABTUNEX_DPV1_START]. No bytes are a poll. */
uint8_t rabtunex_read_dpv1_call(const uint8_t *bytes, size_t bytes_len,
                                uint8_t fields[RABTUNEX_DPV1_FIELDS]);

/* The same of one DPV1 answer, positive or negative. No bytes give RABTUNEX_REFUSED_DATA_LENGTH.
 * The answer to a write:
 *
 *     if (rabtunex_read_dpv1_answer(bytes, bytes_len, fields) == 0) {
 *         if (fields[RABTUNEX_DPV1_NUMBER] == RABTUNEX_DPV1_WRITE) {
 *             performed(fields);
 *         } else if (fields[RABTUNEX_DPV1_NUMBER] ==
 *                    RABTUNEX_DPV1_NEGATIVE + RABTUNEX_DPV1_WRITE) {
 *             refused(fields);
 *         }
 *     }
 */
uint8_t rabtunex_read_dpv1_answer(const uint8_t *bytes, size_t bytes_len,
                                  uint8_t fields[RABTUNEX_DPV1_FIELDS]);

/* Writes one DPV1 call from its fields and its part, the data, at the front of out, and its length
 * to *stored: 0 for a poll. RABTUNEX_DPV1_START and RABTUNEX_DPV1_LEN are not looked at, nor is any
 * field that the case does not have, so that fields that were read can be given back as they are.
 * A number that no call has, a negative one among them, gives RABTUNEX_REFUSED_DPV1 before all
 * else; a count of data that the case does not take, RABTUNEX_REFUSED_DATA_LENGTH. */
uint8_t rabtunex_write_dpv1_call(const uint8_t fields[RABTUNEX_DPV1_FIELDS], const uint8_t *part,
                                 size_t part_len, uint8_t *out, size_t out_len, size_t *stored);

/* The same of one DPV1 answer. No answer has the number of a poll. */
uint8_t rabtunex_write_dpv1_answer(const uint8_t fields[RABTUNEX_DPV1_FIELDS], const uint8_t *part,
                                   size_t part_len, uint8_t *out, size_t out_len, size_t *stored);

/* Services. The number of each is its SAP at the slave; Data_Exchange has none. */
#define RABTUNEX_DATA_EXCHANGE 0
#define RABTUNEX_DPV1 51
#define RABTUNEX_EXT_USER_PRM 53
#define RABTUNEX_SET_SLAVE_ADR 55
#define RABTUNEX_RD_INP 56
#define RABTUNEX_RD_OUTP 57
#define RABTUNEX_GLOBAL_CONTROL 58
#define RABTUNEX_GET_CFG 59
#define RABTUNEX_SLAVE_DIAG 60
#define RABTUNEX_SET_PRM 61
#define RABTUNEX_CHK_CFG 62

/* Ways. */
#define RABTUNEX_CALL 0   /* from the master to the slave */
#define RABTUNEX_ANSWER 1 /* from the slave to the master */

/* Versions, by which parameters are read and written. */
#define RABTUNEX_VERSION_DPV0 0
#define RABTUNEX_VERSION_DPV1 1

/* The fields of a service telegram: an array of RABTUNEX_SERVICE_FIELDS bytes, at these places. */
#define RABTUNEX_SERVICE_FIELDS 18
#define RABTUNEX_SERVICE 0       /* RABTUNEX_DATA_EXCHANGE .. RABTUNEX_CHK_CFG */
#define RABTUNEX_WAY 1           /* RABTUNEX_CALL or RABTUNEX_ANSWER */
#define RABTUNEX_SERVICE_KIND 2  /* RABTUNEX_SD1, RABTUNEX_SD2 or RABTUNEX_SD3 */
#define RABTUNEX_SERVICE_DA 3    /* destination address, its low seven bits */
#define RABTUNEX_SERVICE_SA 4    /* source address, its low seven bits */
#define RABTUNEX_SERVICE_FC 5    /* function code */
#define RABTUNEX_PART_START 6    /* where the part behind the fixed bytes begins in the telegram */
#define RABTUNEX_PART_LEN 7      /* how many bytes it has */
#define RABTUNEX_SERVICE_BYTES 8 /* from here on, the service's own fields */

/* The service's own fields are the fixed bytes of its data in their order, from
 * RABTUNEX_SERVICE_BYTES on, and the places behind them are 0:
 *
 *     Slave_Diag, answer  6: status 1, 2 and 3, master, ident high, ident low;
 *                         the part is the blocks
 *     Set_Prm             7: flags, watchdog factors 1 and 2, response time in bit times,
 *                         ident high, ident low, groups; and in version DPV1
 *                         3 more: DPV1 status 1, 2 and 3;
 *                         the part is the user parameters
 *     Set_Slave_Adr       4: address, ident high, ident low, and 1 where further changes are
 *                         not allowed, else 0;
 *                         the part is empty
 *     Global_Control      2: command, groups;
 *                         the part is empty
 *     DPV1                4: RABTUNEX_DPV1_NUMBER and the three fields behind it, as
 *                         rabtunex_read_dpv1_call and rabtunex_read_dpv1_answer give them;
 *                         the part is the data
 *
 * All others have none: the part is all of their data, which is process data, plain bytes, a
 * configuration, or empty. */

/* The shortest response time of Set_Prm, in bit times. */
#define RABTUNEX_RESPONSE_MIN 11

/* Reads one service telegram, which is all of the bytes, into its fields, in a version. The part
 * stays where it is: fields[RABTUNEX_PART_LEN] bytes from bytes + fields[RABTUNEX_PART_START]. An
 * unknown version gives RABTUNEX_REFUSED_FIELD before all else. The telegram's own refusal comes
 * next, then RABTUNEX_REFUSED_SERVICE, then what the service's data are refused for. */
uint8_t rabtunex_read_service(const uint8_t *bytes, size_t bytes_len, uint8_t version,
                              uint8_t fields[RABTUNEX_SERVICE_FIELDS]);

/* Writes one service telegram from its fields and its part at the front of out, and its length to
 * *stored. The function code decides the way, and service and way the SAPs; opening, counted and
 * uncounted codes are a call's, bare and data codes an answer's, and RABTUNEX_WAY must say the
 * same. RABTUNEX_PART_START and RABTUNEX_PART_LEN are not looked at, nor is any field that the
 * service does not have, so that fields that were read can be given back as they are. The first
 * fault comes first:
 *
 *     RABTUNEX_REFUSED_FIELD    an unknown version or way, a kind that carries no service, or a
 *                               service above RABTUNEX_SAP_MAX; a bad telegram field or a bad
 *                               length of the data. For the length the fixed bytes count by the
 *                               function code's way, a DPV1 number that is refused below counts
 *                               as four fixed bytes, and a service that is not listed as two SAPs
 *                               and the part
 *     RABTUNEX_REFUSED_SERVICE  a service that is not listed, a way that is not the function
 *                               code's, or a function code that the service does not go by
 *     RABTUNEX_REFUSED_DPV1     a DPV1 number that no call, or no answer, has
 *     what the service's data are refused for
 *     RABTUNEX_REFUSED_ROOM
 */
uint8_t rabtunex_write_service(const uint8_t fields[RABTUNEX_SERVICE_FIELDS], uint8_t version,
                               const uint8_t *part, size_t part_len, uint8_t *out, size_t out_len,
                               size_t *stored);

/* A template book has a template for each of some slots of the printer, at least one, with the
 * slots going up: the most templates, and the shortest and the longest body of one. */
#define RABTUNEX_TEMPLATES_MAX 16
#define RABTUNEX_TEMPLATE_MIN 1
#define RABTUNEX_TEMPLATE_MAX 200

/* The longest book: an output of so many bytes is never too small. */
#define RABTUNEX_BOOK_MAX 3233

/* Reads one template book, which is all of the bytes, and stores the number of its templates in
 * *count. Every template is looked at too: none from 1 to *count is refused then. */
uint8_t rabtunex_read_book(const uint8_t *bytes, size_t bytes_len, size_t *count);

/* A template of a book: an array of RABTUNEX_TEMPLATE_FIELDS numbers, at these places. */
#define RABTUNEX_TEMPLATE_FIELDS 3
#define RABTUNEX_TEMPLATE_SLOT 0  /* the slot, below RABTUNEX_SLOTS */
#define RABTUNEX_TEMPLATE_START 1 /* where the body begins in the book's bytes */
#define RABTUNEX_TEMPLATE_LEN 2   /* how many bytes the body has */

/* Stores the fields of template k of a book, counted from 1. The body stays where it is:
 * fields[RABTUNEX_TEMPLATE_LEN] bytes from bytes + fields[RABTUNEX_TEMPLATE_START]. All of the book
 * is read first, and one that is refused gives its own number for every k; a k that the book does
 * not have gives RABTUNEX_REFUSED_FIELD. All templates of a book:
 *
 *     size_t fields[RABTUNEX_TEMPLATE_FIELDS];
 *     size_t k = 1;
 *     while (rabtunex_book_template(bytes, bytes_len, k, fields) == 0) {
 *         show(fields);
 *         k++;
 *     }
 */
uint8_t rabtunex_book_template(const uint8_t *bytes, size_t bytes_len, size_t k,
                               size_t fields[RABTUNEX_TEMPLATE_FIELDS]);

/* Writes one book at the front of out, and its length to *stored: slots has the slot of each
 * template, lengths the length of its body in the same order, and bodies all bodies, one after the
 * other. What reading would refuse as RABTUNEX_REFUSED_BOOK_TABLE gives that number, and so do
 * lengths that are not as many as the slots, and bodies that are not as many bytes as the lengths
 * add up to. */
uint8_t rabtunex_write_book(const uint8_t *slots, size_t slots_len, const uint8_t *lengths,
                            size_t lengths_len, const uint8_t *bodies, size_t bodies_len,
                            uint8_t *out, size_t out_len, size_t *stored);

/* The download of a template book to a printer. */

/* What is set for a download: an array of RABTUNEX_SETTINGS bytes, at these places. */
#define RABTUNEX_SETTINGS 4
#define RABTUNEX_SET_PRINTER 0    /* the address that requests go to */
#define RABTUNEX_SET_CONTROLLER 1 /* the address that they come from, another one */
#define RABTUNEX_SET_REPEATS 2    /* R, how often a request is sent again */
#define RABTUNEX_SET_POLLS 3      /* P, how often a result is asked for */

/* Either address is RABTUNEX_ADDRESS_MAX at most; R may be 0. */
#define RABTUNEX_REPEATS_MAX 7
#define RABTUNEX_POLLS_MIN 1
#define RABTUNEX_POLLS_MAX 31

/* How a download stands: an array of RABTUNEX_ENDING bytes. The template, counted from 1, is 0
 * where the ending has none, and both codes are 0 but for RABTUNEX_ENDED_REFUSED. */
#define RABTUNEX_ENDING 4
#define RABTUNEX_ENDING_KIND 0 /* RABTUNEX_GOES_ON .. RABTUNEX_ENDED_STRANGE */
#define RABTUNEX_ENDING_TEMPLATE 1
#define RABTUNEX_ENDING_CODE1 2
#define RABTUNEX_ENDING_CODE2 3

#define RABTUNEX_GOES_ON 0          /* it has not ended: a request is to be sent */
#define RABTUNEX_ENDED_DONE 1       /* every template is in its slot */
#define RABTUNEX_ENDED_NO_OPENING 2 /* no diagnosis came back: no slot has changed */
#define RABTUNEX_ENDED_NO_ANSWER 3  /* a request at the template was never answered */
#define RABTUNEX_ENDED_NOT_READY 4  /* P polls for the template's result got "not yet" */
#define RABTUNEX_ENDED_REFUSED 5    /* the printer refused the template, with both codes */
#define RABTUNEX_ENDED_STRANGE 6    /* some other reply came at the template */

/* Code 1 of a printer that refuses a write; code 2 is 0 then. A download meets only the last one,
 * since a book has no other template. */
#define RABTUNEX_CODE1_INDEX 0xB0  /* there is no such slot */
#define RABTUNEX_CODE1_LENGTH 0xB1 /* the template is too long */
#define RABTUNEX_CODE1_SLOT 0xB2   /* the DPV1 slot is not RABTUNEX_TEMPLATES_SLOT */
#define RABTUNEX_CODE1_DENIED 0xB6 /* RABTUNEX_GUARDED_SLOT, while boarding */

/* The DPV1 slot whose indices are the printer's slots. */
#define RABTUNEX_TEMPLATES_SLOT 1

/* What the controller remembers between two steps: an array of RABTUNEX_CONTROLLER_STATE bytes.
 * All 0 is a fresh one: begin every download with it. A place that the kind does not have is not
 * looked at, and is stored as 0. */
#define RABTUNEX_CONTROLLER_STATE 5
#define RABTUNEX_SENT 0          /* what was sent last: RABTUNEX_SENT_NOTHING .. _POLL */
#define RABTUNEX_SENT_TEMPLATE 1 /* write and poll: for which template, counted from 1 */
#define RABTUNEX_SENT_FCB 2      /* write and poll: its FCB, 0 or 1 */
#define RABTUNEX_REPEATS_LEFT 3  /* write and poll: how often it may be sent again */
#define RABTUNEX_POLLS_LEFT 4    /* poll: how many more may follow it */

#define RABTUNEX_SENT_NOTHING 0
#define RABTUNEX_SENT_OPENING 1
#define RABTUNEX_SENT_WRITE 2
#define RABTUNEX_SENT_POLL 3

/* The controller's step: what to do now that the reply came back for the request that was sent
 * last. Where none came in time, or none was sent yet, the reply has no bytes. Where ending is
 * RABTUNEX_GOES_ON then, the next request stands at the front of request, of *stored bytes, and
 * state is the controller after it; else state and request are as they were, and *stored is 0. The
 * first fault comes first:
 *
 *     RABTUNEX_REFUSED_FIELD  a state that no controller has (an unknown kind, or the FCB of a
 *                             write or poll above 1), or a bad setting
 *     what the book is refused for
 *     RABTUNEX_REFUSED_FIELD  a state that no download of this book leads to
 *     RABTUNEX_REFUSED_ROOM   the request does not fit; RABTUNEX_TELEGRAM_MAX bytes are enough
 *
 * A whole download, where exchange sends a request, waits, and gives the count of bytes that came
 * back, 0 for none:
 *
 *     uint8_t state[RABTUNEX_CONTROLLER_STATE] = {0};
 *     uint8_t ending[RABTUNEX_ENDING];
 *     size_t got = 0;
 *     size_t stored;
 *     while (rabtunex_controller_step(settings, book, book_len, state, reply, got, request,
 *                                     RABTUNEX_TELEGRAM_MAX, &stored, ending) == 0 &&
 *            ending[RABTUNEX_ENDING_KIND] == RABTUNEX_GOES_ON) {
 *         got = exchange(request, stored, reply, RABTUNEX_TELEGRAM_MAX);
 *     }
 */
uint8_t rabtunex_controller_step(const uint8_t settings[RABTUNEX_SETTINGS], const uint8_t *book,
                                 size_t book_len, uint8_t state[RABTUNEX_CONTROLLER_STATE],
                                 const uint8_t *reply, size_t reply_len, uint8_t *request,
                                 size_t request_len, size_t *stored,
                                 uint8_t ending[RABTUNEX_ENDING]);

/* What the printer remembers between two telegrams: an array of RABTUNEX_PRINTER_STATE bytes. A
 * fresh printer has its address, boarding as it is, RABTUNEX_NOBODY, and all else 0. A place that
 * the pending result does not have is not looked at, and is stored as 0. */
#define RABTUNEX_PRINTER_STATE 11
#define RABTUNEX_PRINTER_ADDRESS 0  /* its own address, RABTUNEX_ADDRESS_MAX at most */
#define RABTUNEX_PRINTER_BOARDING 1 /* 1 while boarding, else 0 */
#define RABTUNEX_PRINTER_FCB 2      /* FCB of the last opening or new call, 0 or 1 */
#define RABTUNEX_PRINTER_SA 3       /* SA of it, or RABTUNEX_NOBODY */
#define RABTUNEX_PRINTER_HELD 4     /* how many bytes at the front of reply are held, or 0 */
#define RABTUNEX_PRINTER_PENDING 5  /* the result: RABTUNEX_PENDING_NOTHING .. _NEGATIVE */
#define RABTUNEX_PRINTER_RESULT 6   /* three: slot, index and length; or code 1 and code 2 */
#define RABTUNEX_PRINTER_WAIT 9     /* how many polls get "not yet" before the result */
#define RABTUNEX_PRINTER_WRITES 10  /* writes performed since the opening, staying at 255 */

/* The slot that cannot be written to while boarding. */
#define RABTUNEX_GUARDED_SLOT 7

#define RABTUNEX_NOBODY 255

#define RABTUNEX_PENDING_NOTHING 0
#define RABTUNEX_PENDING_POSITIVE 1
#define RABTUNEX_PENDING_NEGATIVE 2

/* The printer's slots: how many bytes of each are its template, and RABTUNEX_TEMPLATE_MAX bytes
 * for each, one slot after the other. */
#define RABTUNEX_SLOTS 16
#define RABTUNEX_SLOT_BYTES (RABTUNEX_SLOTS * RABTUNEX_TEMPLATE_MAX)

/* The printer's step: what it does with a telegram that reached it, or with bytes that are none.
 * It changes state, slots and reply, and stores in *sent how many bytes at the front of reply it
 * sends back, 0 for no reply. The held reply stands at the front of reply: lend it again unchanged
 * at the next step. not_yet is the number of "not yet" answers for the write that it may perform.
 * The first fault comes first:
 *
 *     RABTUNEX_REFUSED_FIELD  a state that no printer has (boarding or FCB above 1, an unknown
 *                             pending result), a bad address, a slot length above
 *                             RABTUNEX_TEMPLATE_MAX, or a diagnosis that is refused
 *     RABTUNEX_REFUSED_ROOM   a reply buffer under RABTUNEX_TELEGRAM_MAX bytes
 *
 * The printer's end of the line, where receive gives the count of bytes that came in:
 *
 *     uint8_t state[RABTUNEX_PRINTER_STATE] = {address, 0, 0, RABTUNEX_NOBODY};
 *     size_t sent;
 *     for (;;) {
 *         size_t got = receive(telegram, RABTUNEX_TELEGRAM_MAX);
 *         if (rabtunex_printer_step(state, telegram, got, diagnosis, diagnosis_len, not_yet,
 *                                   lengths, bodies, reply, RABTUNEX_TELEGRAM_MAX, &sent) == 0) {
 *             transmit(reply, sent);
 *         }
 *     }
 */
uint8_t rabtunex_printer_step(uint8_t state[RABTUNEX_PRINTER_STATE], const uint8_t *telegram,
                              size_t telegram_len, const uint8_t *diagnosis, size_t diagnosis_len,
                              uint8_t not_yet, uint8_t lengths[RABTUNEX_SLOTS],
                              uint8_t bodies[RABTUNEX_SLOT_BYTES], uint8_t *reply,
                              size_t reply_len, size_t *sent);

/* What the line does with a sending. */
#define RABTUNEX_THROUGH 0
#define RABTUNEX_REQUEST_LOST 1
#define RABTUNEX_REPLY_LOST 2

/* The most sendings of a download. */
#define RABTUNEX_SENDINGS_MAX 4097

/* A whole download to a printer that is lent, along a line that is given: both steps joined, for
 * tools and tests. line has an entry for each sending in turn, and a missing one goes through;
 * not_yet has the number of "not yet" answers for each write, and a missing one is 0. It stores how
 * it ended and, in *sendings, after how many sendings; state, slots and both buffers are as the
 * steps left them. The first fault comes first, and nothing is sent then:
 *
 *     RABTUNEX_REFUSED_FIELD  a state that no printer has, or a bad setting
 *     what the book is refused for
 *     RABTUNEX_REFUSED_FIELD  an entry of the line above RABTUNEX_REPLY_LOST; then what the
 *                             printer's step gives it for
 *     RABTUNEX_REFUSED_ROOM   a buffer under RABTUNEX_TELEGRAM_MAX bytes
 */
uint8_t rabtunex_download(const uint8_t settings[RABTUNEX_SETTINGS], const uint8_t *book,
                          size_t book_len, const uint8_t *line, size_t line_len,
                          const uint8_t *not_yet, size_t not_yet_len, const uint8_t *diagnosis,
                          size_t diagnosis_len, uint8_t state[RABTUNEX_PRINTER_STATE],
                          uint8_t lengths[RABTUNEX_SLOTS], uint8_t bodies[RABTUNEX_SLOT_BYTES],
                          uint8_t *reply, size_t reply_len, uint8_t *request, size_t request_len,
                          uint8_t ending[RABTUNEX_ENDING], size_t *sendings);

#ifdef __cplusplus
}
#endif

#endif
