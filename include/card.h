/*
 * The window and event bookkeeping of an NVMe card with NVM Sets in Predictable Latency Mode.
 *
 * The card's whole state is one region of bytes, the table, which the caller owns, keeps and lends to each call. The library
 * holds nothing between calls, takes no memory of its own, starts no thread and prints nothing. Tables are independent: calls
 * on different tables may run at the same time. It is x86-64 code that uses the SSE2 registers and the red zone, and needs memcpy and
 * memset and nothing else. A call of card_command takes at most CARD_COMMAND_STACK_BYTES of stack, a call of any other at most
 * CARD_STACK_BYTES.
 *
 * Every function takes any bytes whatever. It carries out what is asked, or returns the one number below that says why it refused
 * (CARD_IS_REFUSAL); a refused call changes no byte of the table and no byte of the answer buffer. What was carried out may have changed
 * the table, whatever its number. All numbers in the regions are little-endian, and no region needs any alignment.
 *
 * Regions that are lent to one call must not overlap. A pointer may be NULL where its length is 0.
 *
 * The numbers are status type x 256 + status code, as bits 27:17 of a completion's dword 3 hold them. Where several hold, the first of this
 * order is returned: of set-up CARD_BAD_SET_UP, CARD_TOO_SHORT; of a media event CARD_BAD_TABLE, CARD_UNKNOWN_SET; of a tick
 * CARD_BAD_TABLE, CARD_LONG_TICK; of a command
 *   CARD_BAD_TABLE, CARD_BAD_COMMAND, CARD_INVALID_OPCODE, CARD_INVALID_FIELD (feature or CNS), CARD_INVALID_LOG_PAGE,
 *   CARD_NOT_SAVEABLE, CARD_INVALID_FIELD (all else), CARD_TOO_SHORT, CARD_TOO_EARLY, CARD_TOO_MANY_REQUESTS.
 *
 * Notices. A host that does not want to poll page 0Bh sends Asynchronous Event Requests, up to CARD_MAX_WAITING, and turns notices on
 * (CARD_FEATURE_EVENTS). Each request is answered CARD_WAITING: it is kept in the table and completed later. The firmware does not
 * complete it then, but when a call's reply says so (CARD_REPLY_NOTICE), with the identifier and the dword 0 that stand there.
 * - When a call lists one or more sets on page 0Bh that were not listed, notices are on, none is masked and a request waits, that
 *   call's reply has a notice to the oldest request; this request waits no more, and further notices are masked. One call gives at
 *   most one notice, however many sets it lists.
 * - Where such a notice cannot be sent, since notices are off or masked or no request waits, one flag remembers it. It is served,
 *   in the same way, by the call that first makes it possible: one that turns notices on, or a request, which is answered
 *   CARD_WAITING all the same and completed by the notice in that very reply.
 * - A successful read of page 0Bh without Retain Asynchronous Event, of any part of it, lifts the mask and drops the flag; it sends
 *   nothing and clears no set. Nothing else lifts the mask. Turning notices off keeps mask, flag and requests.
 */
#ifndef CARD_H
#define CARD_H

#include <stddef.h>
#include <stdint.h>

#ifdef __cplusplus
extern "C" {
#endif

#define CARD_OK 0x0000u
#define CARD_WAITING 0x07C8u /* an Asynchronous Event Request was taken and waits; it is not completed yet */

/* Whether a number that a function returned is a refusal. Ask this and not whether it is CARD_OK: what was carried out may be
 * answered CARD_WAITING, and a later version may have more such numbers. */
#define CARD_IS_REFUSAL(number) card_is_refusal(number)

/* a function, so that what is handed to it is called once */
static inline int card_is_refusal(uint16_t number)
{
    return number != CARD_OK && number != CARD_WAITING;
}

/* what a command may be refused with */
#define CARD_BAD_TABLE 0x07C3u         /* the table is not legal, or its region is too short; events and ticks too */
#define CARD_BAD_COMMAND 0x07C7u       /* the command has not 64 bytes */
#define CARD_INVALID_OPCODE 0x0001u    /* not Get Log Page, Identify, Set Features, Get Features or Asynchronous Event Request */
#define CARD_TOO_MANY_REQUESTS 0x0105u /* an Asynchronous Event Request where CARD_MAX_WAITING wait already */
/* a feature, CNS, Select, offset, number of dwords (over 1,024) or window that the card does not take; a set that is not in the
 * table; feature 14h of a set whose mode is off */
#define CARD_INVALID_FIELD 0x0002u
#define CARD_INVALID_LOG_PAGE 0x0109u  /* a log page other than 0Ah and 0Bh */
#define CARD_NOT_SAVEABLE 0x010Du      /* Set Features with Save */
#define CARD_TOO_SHORT 0x07C2u         /* the data, the answer buffer or (set-up) the table's region is shorter than needed */
#define CARD_TOO_EARLY 0x07C1u         /* the deterministic window was selected before the set had spent its need outside it (below) */

/* what the others may be refused with */
#define CARD_UNKNOWN_SET 0x07C0u /* a media event of a set that is not in the table */
#define CARD_LONG_TICK 0x07C5u   /* a tick of more than CARD_MAX_TICK ms */
#define CARD_BAD_SET_UP 0x07C4u  /* the number of sets, their order, an attribute or the length of the bodies is wrong */

/* opcodes, features, log pages and the list that Identify gives */
#define CARD_GET_LOG_PAGE 0x02u
#define CARD_IDENTIFY 0x06u
#define CARD_SET_FEATURES 0x09u
#define CARD_GET_FEATURES 0x0Au
#define CARD_ASYNC_EVENT_REQUEST 0x0Cu
#define CARD_FEATURE_EVENTS 0x0Bu /* Asynchronous Event Configuration, of the whole card */
#define CARD_FEATURE_CONFIG 0x13u /* Predictable Latency Mode Config */
#define CARD_FEATURE_WINDOW 0x14u /* Predictable Latency Mode Window */
#define CARD_PAGE_LATENCY 0x0Au   /* Predictable Latency Per NVM Set, 512 bytes */
#define CARD_PAGE_AGGREGATE 0x0Bu /* Predictable Latency Event Aggregate, CARD_AGGREGATE_BYTES */
#define CARD_CNS_SET_LIST 0x04u   /* NVM Set List, 4,096 bytes, of at most CARD_SET_LIST_ENTRIES sets */

/* the one bit of feature 0Bh that the card keeps: in CDW11 of Set Features, and in dword 0 of Get Features. Others are ignored, and 0. */
#define CARD_EVENTS_PREDICTABLE_LATENCY 0x1000u

/* windows, as feature 14h takes and gives them and page 0Ah shows them */
#define CARD_WINDOW_NONE 0u /* the mode is off */
#define CARD_WINDOW_D 1u    /* deterministic */
#define CARD_WINDOW_N 2u    /* non-deterministic */

/* event bits, in ENEV as in the event type */
#define CARD_EVENT_READS 0x0001u     /* the reads left fell below their threshold */
#define CARD_EVENT_WRITES 0x0002u    /* the writes left did */
#define CARD_EVENT_TIME 0x0004u      /* the time left did */
#define CARD_EVENT_EXCEEDED 0x4000u  /* a typical was exceeded, or the time is up */
#define CARD_EVENT_EXCURSION 0x8000u /* the set could not be kept deterministic */

#define CARD_MAX_SETS 64
#define CARD_MAX_WAITING 4      /* requests */
#define CARD_MAX_TICK 86400000u /* one day, in ms */

#define CARD_SET_LIST_ENTRIES 31 /* in one Identify answer: card_command says how to ask for the rest */
#define CARD_AGGREGATE_BYTES 136 /* page 0Bh: the number of entries, and CARD_MAX_SETS of two bytes */

#define CARD_COMMAND_BYTES 64  /* a submission queue entry */
#define CARD_CONFIG_BYTES 512  /* the data of feature 13h */
#define CARD_ANSWER_BYTES 4096 /* an answer buffer of so many bytes is never too short */
#define CARD_BODY_BYTES 84     /* one set's attributes, for set-up */
#define CARD_REPLY_BYTES 16    /* what a call says beside its status */

/* where in a reply: dword 0 of the completion (4 bytes), how many bytes of data stand in the answer buffer (4); then the notice: 1 where
 * there is one (1 byte, and one that is zero), the command identifier of the request that it completes (2) and that request's dword 0
 * (4), which is CARD_NOTICE. Where there is none these eight bytes are zeros: an identifier may be 0, so look at CARD_REPLY_NOTICE. */
#define CARD_REPLY_DWORD_0 0
#define CARD_REPLY_LENGTH 4
#define CARD_REPLY_NOTICE 8
#define CARD_REPLY_NOTICE_ID 10
#define CARD_REPLY_NOTICE_DWORD_0 12

#define CARD_NOTICE 0x000B0402u /* a notice (2) of Predictable Latency Event Aggregate Log Change (04h): read log page 0Bh */

/* How much stack a call takes at most, with all that it calls but memcpy and memset. Measured: card_command 1,064, card_reads,
   card_writes and card_excursion 392, card_tick 280, card_set_up 184. */
#define CARD_COMMAND_STACK_BYTES 2048
#define CARD_STACK_BYTES 768 /* of any function but card_command */

/* How many bytes the table of so many sets takes: 280 for one set, 12,880 for 64. Bytes after them are neither read nor written. A
   table keeps the number of its layout: one of another layout, as another version of the library may have written it, is
   CARD_BAD_TABLE, and set-up makes it anew. */
#define CARD_TABLE_BYTES(sets) (8u * (10u + 25u * (sets)))

/*
 * Makes the table of a card with new sets: mode off, no event, nothing listed; notices off, no request, no mask and no flag.
 *
 * bodies: one of CARD_BODY_BYTES for each set, 1 to CARD_MAX_SETS of them, identifiers rising. A body has, one after another:
 *   identifier (2 bytes, 1..65535), endurance group (2, 1..65535), random 4 KiB read typical (4), optimal write size (4),
 *   total capacity (16), unallocated capacity (16, not above total), as Identify CNS 04h hands them out;
 *   DTWIN reads typical (8, 1..4294967295), DTWIN writes typical (8, 1..4294967295), DTWIN time maximum in ms
 *   (8, 1..86400000), NDWIN time minimum high in ms (8, 1..86400000), NDWIN time minimum low in ms (8, 1..86400000, not above
 *   high), as log page 0Ah hands them out.
 * table: at least CARD_TABLE_BYTES(number of bodies) bytes, holding anything. They are written only if all is well.
 *
 * Returns CARD_OK, CARD_BAD_SET_UP or CARD_TOO_SHORT.
 */
uint16_t card_set_up(uint8_t *table, size_t table_len, const uint8_t *bodies, size_t bodies_len);

/*
 * Carries out an admin command: Get Log Page (0Ah, 0Bh), Identify (CNS 04h), Set Features and Get Features (0Bh, 13h, 14h),
 * Asynchronous Event Request.
 *
 * command: the 64 bytes of the submission queue entry. NSID, data pointers and reserved fields are not looked at. The command
 *          identifier, bytes 3:2, is looked at only in an Asynchronous Event Request, of which nothing else but the opcode is; any will
 *          do, also one that waits already.
 * data:    what the command carries to the card: at least 512 bytes for Set Features 13h, of which 512 are read; of others
 *          nothing is read.
 * answer:  room for what the command carries to the host. The data is written to its start; the bytes after it keep what
 *          they held, and so does the whole buffer where the command has no data or is refused.
 * reply:   CARD_REPLY_BYTES bytes that are written by every call, refused or not, as CARD_REPLY_DWORD_0 and so on say; of a refusal
 *          they are zeros. A shorter region gets as many of them as it has room for, and the call is carried out all the same: so with
 *          fewer than 8 bytes the length of what a clearing read has shown is lost, and with fewer than 12 a notice: its request waits
 *          no more, and nothing says which it was. Lend CARD_REPLY_BYTES. Bytes after the sixteenth keep what they held.
 *
 * A successful read of page 0Ah without Retain Asynchronous Event clears that set's events, and its entry on page 0Bh. One of page 0Bh
 * lifts the mask and drops the flag of notices.
 *
 * Set Features 14h selects a set's deterministic window only once the set has spent its need outside it; before, it is refused with
 * CARD_TOO_EARLY, and page 0Ah shows estimates of 0. After a deterministic window of s ms, however it ended, the need is NDWIN time
 * minimum low + (minimum high - minimum low) x s / DTWIN time maximum, rounded up; after a window that lasted its maximum, and after
 * Set Features 13h has enabled the mode, it is minimum high.
 *
 * Identify shows the first CARD_SET_LIST_ENTRIES (31) sets whose identifier is at or above CDW11 15:0, rising; byte 0 counts the
 * entries of that answer. For the others the host asks again from the last identifier plus one: asking so until a count below 31,
 * or a last identifier of 65,535, gives each set once, in at most three answers.
 *
 * Returns the status: CARD_OK, of an Asynchronous Event Request CARD_WAITING, or a refusal.
 */
uint16_t card_command(uint8_t *table, size_t table_len, const uint8_t *command, size_t command_len, const uint8_t *data,
                      size_t data_len, uint8_t *answer, size_t answer_len, uint8_t *reply, size_t reply_len);

/*
 * Media events of one set. They count in its deterministic window only; outside it these calls succeed and change nothing. A
 * count that becomes greater than its typical ends the window and sets event bit 14; an excursion ends it and sets bit 15.
 *
 * card_reads, card_writes: count more 4 KiB reads, or writes of the optimal size, were done.
 * card_excursion: the set could not be kept deterministic.
 * reply: as of card_command. Dword 0 and the length are zero; a notice may stand there.
 * Each returns CARD_OK, CARD_BAD_TABLE or CARD_UNKNOWN_SET.
 */
uint16_t card_reads(uint8_t *table, size_t table_len, uint16_t set, uint16_t count, uint8_t *reply, size_t reply_len);
uint16_t card_writes(uint8_t *table, size_t table_len, uint16_t set, uint16_t count, uint8_t *reply, size_t reply_len);
uint16_t card_excursion(uint8_t *table, size_t table_len, uint16_t set, uint8_t *reply, size_t reply_len);

/*
 * So many milliseconds have gone by, for every set of the card. In the deterministic window, time at or past its maximum ends the
 * window and sets event bit 14, and the excess counts as time outside it, which stops at the set's need (above).
 * A tick of 0 ms changes nothing: it tests whether a table is legal.
 *
 * answer, reply: as of card_command. Nothing is written to the answer buffer; dword 0 and the length are zero; a notice may stand in
 * the reply.
 * Returns CARD_OK, CARD_BAD_TABLE or CARD_LONG_TICK.
 */
uint16_t card_tick(uint8_t *table, size_t table_len, uint32_t milliseconds, uint8_t *answer, size_t answer_len, uint8_t *reply,
                   size_t reply_len);

#ifdef __cplusplus
}
#endif

#endif
