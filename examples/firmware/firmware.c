/*
 * A first day with the card's library: two NVM Sets, one of them in Predictable Latency Mode, from set-up to the end of its
 * deterministic window. The host does not poll for events: it sends requests that wait, and is noticed. The program plays all three
 * parts: the firmware that owns the table, the host that sends commands, and the media that reports what was read. README.md has the
 * build command.
 */
#include <stdbool.h>
#include <stdio.h>

#include "../../include/card.h"
#include "bytes.h"

#define SETS 2
#define SET_7 7
#define SET_9 9

/* The whole state of the card. A firmware would keep it in memory that survives what the card must survive. */
static uint8_t table[CARD_TABLE_BYTES(SETS)];

/* What the last call said beside its status */
static uint8_t reply[CARD_REPLY_BYTES];

/* Words for what the functions return */

static const char *words(uint16_t status)
{
    switch (status) {
    case CARD_OK:
        return "done";
    case CARD_WAITING:
        return "waiting";
    case CARD_INVALID_FIELD:
        return "refused, a field is invalid";
    case CARD_TOO_EARLY:
        return "refused, too early";
    case CARD_UNKNOWN_SET:
        return "refused, no such set";
    default:
        return "refused";
    }
}

/* Any call but set-up may complete a request that waits, and a firmware looks for that after each: here it would post a completion
 * with this command identifier and dword 0. The call's own completion goes first. */
static void tell_notice(void)
{
    if (reply[CARD_REPLY_NOTICE])
        printf("  and event request %u completes with %08lXh: read log page 0Bh\n",
               (unsigned)get_number(reply + CARD_REPLY_NOTICE_ID, 2), (unsigned long)get_number(reply + CARD_REPLY_NOTICE_DWORD_0, 4));
}

static void tell(const char *what, uint16_t status)
{
    printf("%s: %s (%04Xh)\n", what, words(status), status);
    tell_notice();
}

/* The host's side: a command is 64 bytes, of which the card reads the opcode and a few dwords. */

struct command {
    uint8_t opcode;
    uint16_t identifier; /* read of an event request alone */
    uint32_t dword10, dword11, dword12;
    const uint8_t *data; /* what goes to the card */
    size_t data_len;
    uint8_t *answer; /* room for what comes back */
    size_t answer_len;
};

static uint16_t send_command(const struct command *c)
{
    uint8_t entry[CARD_COMMAND_BYTES] = {0};
    entry[0] = c->opcode;
    put_number(entry + 2, 2, c->identifier);
    put_dword(entry, 10, c->dword10);
    put_dword(entry, 11, c->dword11);
    put_dword(entry, 12, c->dword12);
    return card_command(table, sizeof table, entry, sizeof entry, c->data, c->data_len, c->answer, c->answer_len, reply,
                        sizeof reply);
}

/* Media events and ticks. They have no dword 0 and no data yet; but a reply has room for all that a later version may say, and a
 * tick has a buffer for it. */
static uint16_t reads(uint16_t set, uint16_t count)
{
    return card_reads(table, sizeof table, set, count, reply, sizeof reply);
}

static uint16_t writes(uint16_t set, uint16_t count)
{
    return card_writes(table, sizeof table, set, count, reply, sizeof reply);
}

static uint16_t tick(uint32_t milliseconds)
{
    static uint8_t answer[CARD_ANSWER_BYTES];
    return card_tick(table, sizeof table, milliseconds, answer, sizeof answer, reply, sizeof reply);
}

/* Set Features 0Bh, with the one bit that the card keeps */
static uint16_t turn_notices_on(void)
{
    return send_command(&(struct command){
        .opcode = CARD_SET_FEATURES, .dword10 = CARD_FEATURE_EVENTS, .dword11 = CARD_EVENTS_PREDICTABLE_LATENCY});
}

/* Asynchronous Event Request: it is not completed before there is a notice for it. */
static uint16_t request_event(uint16_t identifier)
{
    return send_command(&(struct command){.opcode = CARD_ASYNC_EVENT_REQUEST, .identifier = identifier});
}

/* Set Features 13h: the mode is switched on, with the events that the host wants to hear of and a warning threshold of reads. */
static uint16_t enable(uint16_t set, uint16_t events, uint64_t reads_threshold)
{
    uint8_t config[CARD_CONFIG_BYTES] = {0};
    put_number(config, 2, events);
    put_number(config + 32, 8, reads_threshold);
    return send_command(&(struct command){
        .opcode = CARD_SET_FEATURES, .dword10 = CARD_FEATURE_CONFIG, .dword11 = set, .dword12 = 1, .data = config, .data_len = sizeof config});
}

/* Set Features 14h, with 1 for the deterministic window */
static uint16_t select_deterministic(uint16_t set)
{
    return send_command(&(struct command){.opcode = CARD_SET_FEATURES, .dword10 = CARD_FEATURE_WINDOW, .dword11 = set, .dword12 = CARD_WINDOW_D});
}

/* Get Log Page, of so many bytes from the page's start. The number of dwords less one stands in dword 10 from bit 16 on; Retain
 * Asynchronous Event, bit 15, is left 0: reading page 0Ah clears what it tells, and reading page 0Bh lets the next notice through. */
static bool read_log(uint8_t page, uint16_t set, uint8_t *bytes, size_t length)
{
    uint32_t dwords = (uint32_t)(length / 4);
    uint16_t status = send_command(&(struct command){.opcode = CARD_GET_LOG_PAGE,
                                                     .dword10 = (dwords - 1) << 16 | page,
                                                     .dword11 = (uint32_t)set << 16,
                                                     .answer = bytes,
                                                     .answer_len = length});
    if (CARD_IS_REFUSAL(status))
        tell("read a log page", status);
    return !CARD_IS_REFUSAL(status);
}

/* Pages in plain words */

static const char *window(uint8_t number)
{
    static const char *const names[] = {"in no window, its mode is off", "in its deterministic window",
                                        "in its non-deterministic window"};
    return number < 3 ? names[number] : "in a window that this program does not know";
}

static void print_events(uint16_t events)
{
    static const struct {
        uint16_t bit;
        const char *name;
    } all[] = {{CARD_EVENT_READS, "few reads left"}, {CARD_EVENT_WRITES, "few writes left"}, {CARD_EVENT_TIME, "little time left"},
               {CARD_EVENT_EXCEEDED, "window used up"}, {CARD_EVENT_EXCURSION, "excursion"}};
    const char *before = "";
    printf("  events: ");
    for (size_t i = 0; i < sizeof all / sizeof *all; i++)
        if (events & all[i].bit) {
            printf("%s%s", before, all[i].name);
            before = ", ";
        }
    printf("%s\n", events ? "" : "none");
}

static void print_left(const char *what, const uint8_t *page, unsigned estimate, unsigned whole)
{
    printf("  %s left: %llu of %llu\n", what, (unsigned long long)get_number(page + estimate, 8),
           (unsigned long long)get_number(page + whole, 8));
}

/* Page 0Ah */
static void print_set(uint16_t set)
{
    uint8_t page[512];
    if (!read_log(CARD_PAGE_LATENCY, set, page, sizeof page))
        return;
    printf("set %u is %s\n", set, window(page[0]));
    print_events((uint16_t)get_number(page + 2, 2));
    print_left("reads", page, 128, 32);
    print_left("writes", page, 136, 40);
    print_left("ms", page, 144, 48);
}

/* Page 0Bh. The card lists at most its own sets, so the entries never run past the page. */
static void print_listed(void)
{
    uint8_t page[CARD_AGGREGATE_BYTES];
    if (!read_log(CARD_PAGE_AGGREGATE, 0, page, sizeof page))
        return;
    uint64_t count = get_number(page, 8);
    printf("sets with an event:");
    for (uint64_t i = 0; i < count; i++)
        printf(" %u", (unsigned)get_number(page + 8 + 2 * i, 2));
    printf("%s\n", count ? "" : " none");
}

/* Identify: the sets whose identifier is at or above a number. An answer shows CARD_SET_LIST_ENTRIES of them at most, so the host asks
 * again from the last identifier plus one, until an answer has fewer, or the last identifier is the highest that there can be. */
static void print_sets(void)
{
    static uint8_t list[CARD_ANSWER_BYTES];
    unsigned from = 1, count;
    printf("sets of the card:");
    do {
        uint16_t status = send_command(&(struct command){
            .opcode = CARD_IDENTIFY, .dword10 = CARD_CNS_SET_LIST, .dword11 = from, .answer = list, .answer_len = sizeof list});
        if (CARD_IS_REFUSAL(status))
            break;
        count = list[0];
        for (unsigned i = 0; i < count; i++) {
            unsigned set = (unsigned)get_number(list + 128 * (1 + i), 2);
            printf(" %u", set);
            from = set + 1;
        }
    } while (count == CARD_SET_LIST_ENTRIES && from <= UINT16_MAX);
    printf("\n");
}

/* The day */

static void set_up(void)
{
    static const uint64_t sets[SETS][ATTRIBUTES] = {
        {[IDENTIFIER] = SET_7, [ENDURANCE_GROUP] = 1, [READS_TYPICAL] = 100, [WRITES_TYPICAL] = 50, [TIME_MAXIMUM] = 1000,
         [MINIMUM_HIGH] = 20, [MINIMUM_LOW] = 5},
        {[IDENTIFIER] = SET_9, [ENDURANCE_GROUP] = 1, [READS_TYPICAL] = 2000, [WRITES_TYPICAL] = 300, [TIME_MAXIMUM] = 5000,
         [MINIMUM_HIGH] = 40, [MINIMUM_LOW] = 10},
    };
    uint8_t bodies[SETS * CARD_BODY_BYTES];
    for (unsigned k = 0; k < SETS; k++)
        put_body(bodies + k * CARD_BODY_BYTES, sets[k]);
    tell("set up a card of sets 7 and 9", card_set_up(table, sizeof table, bodies, sizeof bodies));
}

/* One notice completes one request, so the host keeps some waiting. */
static void wait_for_events(void)
{
    tell("turn notices on", turn_notices_on());
    tell("send event request 21", request_event(21));
    tell("send event request 22", request_event(22));
}

/* A set that was just enabled has to recover for its minimum high before it can promise anything. */
static void enter_window(void)
{
    tell("enable set 7", enable(SET_7, CARD_EVENT_READS | CARD_EVENT_EXCEEDED, 10));
    tell("select its deterministic window", select_deterministic(SET_7));
    tell("20 ms go by", tick(20));
    tell("select its deterministic window", select_deterministic(SET_7));
    print_set(SET_7);
}

static void be_warned(void)
{
    tell("91 reads of set 7", reads(SET_7, 91));
    tell("12 writes of set 7", writes(SET_7, 12));
    tell("300 ms go by", tick(300));
    print_listed();
    print_set(SET_7);
    print_listed();
}

static void use_up(void)
{
    tell("9 reads of set 7", reads(SET_7, 9));
    print_set(SET_7);
    tell("1 read of set 7", reads(SET_7, 1));
    print_listed();
    print_set(SET_7);
}

/* A window that was left early is paid for by what was spent of it: 300 of 1000 ms, so 5 ms and 300 thousandths of the 15 from there
 * to 20, which is 9.5, rounded up 10. Until then the estimates are 0. */
static void recover(void)
{
    tell("select its deterministic window", select_deterministic(SET_7));
    tell("9 ms go by", tick(9));
    tell("select its deterministic window", select_deterministic(SET_7));
    tell("1 ms goes by", tick(1));
    print_set(SET_7);
    tell("select its deterministic window", select_deterministic(SET_7));
}

static void meet_the_others(void)
{
    print_set(SET_9);
    tell("select the deterministic window of set 9", select_deterministic(SET_9));
    tell("1 read of set 8", reads(8, 1));
}

int main(void)
{
    set_up();
    print_sets();
    wait_for_events();
    enter_window();
    be_warned();
    use_up();
    recover();
    meet_the_others();
    return 0;
}
