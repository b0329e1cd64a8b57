/*
 * A card whose table is kept in a file, through the C functions of card.h.
 *
 *   card TABLE set-up SET..        make the table; a SET is NAME=NUMBER,NAME=NUMBER,.. with the names below
 *   card TABLE tick MS
 *   card TABLE reads SET COUNT
 *   card TABLE writes SET COUNT
 *   card TABLE excursion SET
 *   card TABLE serve               answer commands on stdin and stdout, as wire.h says
 *
 * All but serve print the status, four hex digits, and where a notice goes beside it a line as bin/replay has it: the identifier of
 * the request that it completes, and dword 0. They end with 0 where the status is 0000, else with 1. The file is written only after
 * a call that was not refused. 2 is the end of a run that went wrong outside the card.
 */
#include <errno.h>
#include <stdbool.h>
#include <stdio.h>
#include <stdlib.h>
#include <string.h>

#include "../../examples/firmware/bytes.h"
#include "../../include/card.h"
#include "wire.h"

static const char *const attribute_names[ATTRIBUTES] = {
    [IDENTIFIER] = "id",
    [ENDURANCE_GROUP] = "group",
    [RANDOM_READ_TYPICAL] = "random-read",
    [OPTIMAL_WRITE_SIZE] = "write-size",
    [TOTAL_CAPACITY] = "total",
    [UNALLOCATED_CAPACITY] = "unallocated",
    [READS_TYPICAL] = "reads",
    [WRITES_TYPICAL] = "writes",
    [TIME_MAXIMUM] = "time",
    [MINIMUM_HIGH] = "high",
    [MINIMUM_LOW] = "low",
};

static _Noreturn void give_up(const char *what, const char *which)
{
    fprintf(stderr, "card: %s: %s\n", which, what);
    exit(2);
}

static uint64_t number(const char *text, uint64_t most)
{
    char *end;
    errno = 0;
    unsigned long long value = strtoull(text, &end, 0);
    if (end == text || *end != '\0' || errno != 0 || value > most)
        give_up("not a number that fits here", text);
    return value;
}

/* The table in its file */

struct card {
    const char *path;
    uint8_t table[CARD_TABLE_BYTES(CARD_MAX_SETS)];
    size_t length;
};

static void load(struct card *card)
{
    FILE *file = fopen(card->path, "rb");
    if (!file)
        give_up(strerror(errno), card->path);
    card->length = fread(card->table, 1, sizeof card->table, file);
    if (ferror(file))
        give_up("cannot be read", card->path);
    fclose(file);
}

/* Written beside and renamed, so that a run which is cut short leaves the old table. */
static void store(const struct card *card)
{
    char beside[4096];
    if ((size_t)snprintf(beside, sizeof beside, "%s.new", card->path) >= sizeof beside)
        give_up("too long a name", card->path);
    FILE *file = fopen(beside, "wb");
    if (!file)
        give_up(strerror(errno), beside);
    bool written = fwrite(card->table, 1, card->length, file) == card->length;
    if (fclose(file) != 0 || !written || rename(beside, card->path) != 0)
        give_up("cannot be written", card->path);
}

/* Set-up */

static unsigned attribute_named(const char *name)
{
    for (unsigned a = 0; a < ATTRIBUTES; a++)
        if (strcmp(name, attribute_names[a]) == 0)
            return a;
    give_up("no attribute of a set", name);
}

static uint64_t most_of(unsigned bytes)
{
    return bytes < 8 ? ((uint64_t)1 << 8 * bytes) - 1 : UINT64_MAX;
}

/* An attribute that is not given is 0. The text is cut up on the way. */
static void read_set(char *text, uint8_t *body)
{
    uint64_t values[ATTRIBUTES] = {0};
    for (char *part = strtok(text, ","); part; part = strtok(NULL, ",")) {
        char *equals = strchr(part, '=');
        if (!equals)
            give_up("not NAME=NUMBER", part);
        *equals = '\0';
        unsigned a = attribute_named(part);
        values[a] = number(equals + 1, most_of(attribute_bytes(a)));
    }
    put_body(body, values);
}

/* One set more than a card can have is let through, so that the card itself refuses it; the table of actions stops any more. */
static uint16_t set_up(struct card *card, int count, char **sets)
{
    static uint8_t bodies[(CARD_MAX_SETS + 1) * CARD_BODY_BYTES];
    for (int k = 0; k < count; k++)
        read_set(sets[k], bodies + k * CARD_BODY_BYTES);
    card->length = count <= CARD_MAX_SETS ? CARD_TABLE_BYTES((unsigned)count) : sizeof card->table;
    return card_set_up(card->table, card->length, bodies, (size_t)count * CARD_BODY_BYTES);
}

/* Media events and ticks */

static uint8_t tick_answer[CARD_ANSWER_BYTES];
static uint8_t event_reply[CARD_REPLY_BYTES];

static uint16_t tick(struct card *card, int count, char **arguments)
{
    (void)count;
    return card_tick(card->table, card->length, (uint32_t)number(arguments[0], UINT32_MAX), tick_answer,
                     sizeof tick_answer, event_reply, sizeof event_reply);
}

static uint16_t reads(struct card *card, int count, char **arguments)
{
    (void)count;
    return card_reads(card->table, card->length, (uint16_t)number(arguments[0], UINT16_MAX),
                      (uint16_t)number(arguments[1], UINT16_MAX), event_reply, sizeof event_reply);
}

static uint16_t writes(struct card *card, int count, char **arguments)
{
    (void)count;
    return card_writes(card->table, card->length, (uint16_t)number(arguments[0], UINT16_MAX),
                       (uint16_t)number(arguments[1], UINT16_MAX), event_reply, sizeof event_reply);
}

static uint16_t excursion(struct card *card, int count, char **arguments)
{
    (void)count;
    return card_excursion(card->table, card->length, (uint16_t)number(arguments[0], UINT16_MAX), event_reply,
                          sizeof event_reply);
}

/* Commands over the wire */

static bool hear(uint8_t *bytes, size_t count)
{
    return fread(bytes, 1, count, stdin) == count;
}

static void say(const uint8_t *bytes, size_t count)
{
    if (fwrite(bytes, 1, count, stdout) != count)
        give_up("cannot be written", "stdout");
}

static void answer(uint16_t status, const uint8_t *card_reply, const uint8_t *data)
{
    uint8_t reply[REPLY_BYTES];
    size_t count = get_number(card_reply + CARD_REPLY_LENGTH, 4);
    put_number(reply + REPLY_STATUS, 2, status);
    put_number(reply + REPLY_DWORD0, 4, get_number(card_reply + CARD_REPLY_DWORD_0, 4));
    put_number(reply + REPLY_DATA, 4, count);
    memcpy(reply + REPLY_NOTICE, card_reply + CARD_REPLY_NOTICE, CARD_REPLY_BYTES - CARD_REPLY_NOTICE);
    say(reply, sizeof reply);
    say(data, count);
    fflush(stdout);
}

/* False at the end of the requests. */
static bool serve_one(struct card *card)
{
    uint8_t request[REQUEST_BYTES], data[WIRE_DATA_BYTES], room[WIRE_DATA_BYTES], card_reply[CARD_REPLY_BYTES];
    if (!hear(request, sizeof request))
        return false;
    size_t data_length = get_number(request + REQUEST_DATA, 4), room_length = get_number(request + REQUEST_ROOM, 4);
    if (data_length > sizeof data || room_length > sizeof room || !hear(data, data_length))
        give_up("not as wire.h says", "request");

    uint16_t status = card_command(card->table, card->length, request, CARD_COMMAND_BYTES, data, data_length, room, room_length,
                                   card_reply, sizeof card_reply);
    if (!CARD_IS_REFUSAL(status))
        store(card);
    answer(status, card_reply, room);
    return true;
}

static int serve(struct card *card)
{
    load(card);
    while (serve_one(card))
        ;
    return 0;
}

/* The command line */

struct action {
    const char *name;
    int least, most; /* arguments */
    uint16_t (*act)(struct card *, int, char **);
};

static const struct action actions[] = {
    {"set-up", 0, CARD_MAX_SETS + 1, set_up}, {"tick", 1, 1, tick}, {"reads", 2, 2, reads}, {"writes", 2, 2, writes},
    {"excursion", 1, 1, excursion},
};

static const struct action *action_named(const char *name, int arguments)
{
    for (size_t i = 0; i < sizeof actions / sizeof *actions; i++) {
        const struct action *action = &actions[i];
        if (strcmp(name, action->name) == 0 && arguments >= action->least && arguments <= action->most)
            return action;
    }
    give_up("no such action, or not its arguments", name);
}

static void print_notice(const uint8_t *card_reply)
{
    if (card_reply[CARD_REPLY_NOTICE])
        printf("%04X %08lX\n", (unsigned)get_number(card_reply + CARD_REPLY_NOTICE_ID, 2),
               (unsigned long)get_number(card_reply + CARD_REPLY_NOTICE_DWORD_0, 4));
}

static int act(struct card *card, const char *name, int count, char **arguments)
{
    const struct action *action = action_named(name, count);
    if (action->act != set_up)
        load(card);
    uint16_t status = action->act(card, count, arguments);
    if (!CARD_IS_REFUSAL(status))
        store(card);
    printf("%04X\n", status);
    print_notice(event_reply);
    return CARD_IS_REFUSAL(status) ? 1 : 0;
}

int main(int argc, char **argv)
{
    static struct card card;
    if (argc < 3)
        give_up("card TABLE set-up|tick|reads|writes|excursion|serve ARGUMENTS", "usage");
    card.path = argv[1];
    if (strcmp(argv[2], "serve") == 0)
        return serve(&card);
    return act(&card, argv[2], argc - 3, argv + 3);
}
