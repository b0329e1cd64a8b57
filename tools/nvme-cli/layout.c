/*
 * Document 01's byte numbers against libnvme's structures, and the numbers of card.h that NVMe has given against libnvme's.
 *
 * At compile time: where each field lies, and the numbers. At run time, against pages that nvme-cli took from the card: what each field holds.
 *
 *   layout config         prints the data of feature 13h, as libnvme lays it out
 *   layout check FOLDER   compares the pages in FOLDER with what tests/libnvme-layout put into the card
 *
 * What was put in are the numbers PUT_.., which that test sets for the card and for this program alike.
 */
#include <endian.h>
#include <libnvme.h>
#include <stdbool.h>
#include <stddef.h>
#include <stdio.h>
#include <string.h>

#include "../../include/card.h"

/* The field lies in bytes last:first, as 01 writes it. */
#define BYTES(type, field, last, first)                                                                      \
    _Static_assert(offsetof(struct type, field) == (first), #type "." #field " begins elsewhere");           \
    _Static_assert(sizeof(((struct type *)0)->field) == (last) - (first) + 1, #type "." #field " has another length")
#define SIZE(type, bytes) _Static_assert(sizeof(struct type) == (bytes), #type " has another length")

/* page 0Ah */
SIZE(nvme_nvmset_predictable_lat_log, 512);
BYTES(nvme_nvmset_predictable_lat_log, status, 0, 0);
BYTES(nvme_nvmset_predictable_lat_log, event_type, 3, 2);
BYTES(nvme_nvmset_predictable_lat_log, dtwin_rt, 39, 32);
BYTES(nvme_nvmset_predictable_lat_log, dtwin_wt, 47, 40);
BYTES(nvme_nvmset_predictable_lat_log, dtwin_tmax, 55, 48);
BYTES(nvme_nvmset_predictable_lat_log, ndwin_tmin_hi, 63, 56);
BYTES(nvme_nvmset_predictable_lat_log, ndwin_tmin_lo, 71, 64);
BYTES(nvme_nvmset_predictable_lat_log, dtwin_re, 135, 128);
BYTES(nvme_nvmset_predictable_lat_log, dtwin_we, 143, 136);
BYTES(nvme_nvmset_predictable_lat_log, dtwin_te, 151, 144);

/* page 0Bh: the entries after the count, two bytes each; with 64 of them 136 bytes */
#define ENTRIES_0BH 64
SIZE(nvme_aggregate_predictable_lat_event, 8);
BYTES(nvme_aggregate_predictable_lat_event, num_entries, 7, 0);
BYTES(nvme_aggregate_predictable_lat_event, entries[0], 9, 8);
BYTES(nvme_aggregate_predictable_lat_event, entries[ENTRIES_0BH - 1], 135, 134);
_Static_assert(CARD_MAX_SETS == ENTRIES_0BH && CARD_AGGREGATE_BYTES == 136, "page 0Bh has another length in card.h");

/* Identify 04h: the count, then entries of 128 bytes from byte 128 */
SIZE(nvme_id_nvmset_list, 4096);
SIZE(nvme_nvmset_attr, 128);
BYTES(nvme_id_nvmset_list, nid, 0, 0);
BYTES(nvme_id_nvmset_list, ent[0], 255, 128);
BYTES(nvme_id_nvmset_list, ent[CARD_SET_LIST_ENTRIES - 1], 4095, 3968);
BYTES(nvme_nvmset_attr, nvmsetid, 1, 0);
BYTES(nvme_nvmset_attr, endgid, 3, 2);
BYTES(nvme_nvmset_attr, rr4kt, 11, 8);
BYTES(nvme_nvmset_attr, ows, 15, 12);
BYTES(nvme_nvmset_attr, tnvmsetcap, 31, 16);
BYTES(nvme_nvmset_attr, unvmsetcap, 47, 32);

/* the data of feature 13h */
SIZE(nvme_plm_config, 512);
BYTES(nvme_plm_config, ee, 1, 0);
BYTES(nvme_plm_config, dtwinrt, 39, 32);
BYTES(nvme_plm_config, dtwinwt, 47, 40);
BYTES(nvme_plm_config, dtwintt, 55, 48);

/* Identify 01h: the maximum set identifier */
SIZE(nvme_id_ctrl, 4096);
BYTES(nvme_id_ctrl, nsetidmax, 339, 338);

/* requests and notices: opcode, feature and its bit, the status of one request too many, and dword 0 of a notice */
#define NUMBER(ours, theirs) _Static_assert((ours) == (theirs), #ours " is another number in libnvme")
NUMBER(CARD_ASYNC_EVENT_REQUEST, nvme_admin_async_event);
NUMBER(CARD_FEATURE_EVENTS, NVME_FEAT_FID_ASYNC_EVENT);
NUMBER(CARD_EVENTS_PREDICTABLE_LATENCY, NVME_FEAT_AE_PLA_MASK << NVME_FEAT_AE_PLA_SHIFT);
NUMBER(CARD_TOO_MANY_REQUESTS, NVME_SCT_CMD_SPECIFIC << NVME_SCT_SHIFT | NVME_SC_ASYNC_LIMIT);
NUMBER(CARD_NOTICE, NVME_LOG_LID_PREDICTABLE_LAT_AGG << 16 | NVME_AER_NOTICE_PL_EVENT << 8 | NVME_AER_NOTICE);

/* The pages as they must be, made field by field; all else in them is zero, which 01 asks for too. */

static struct nvme_plm_config config_page(void)
{
    return (struct nvme_plm_config){
        .ee = htole16(PUT_ENEV),
        .dtwinrt = htole64(PUT_READS_THRESHOLD),
        .dtwinwt = htole64(PUT_WRITES_THRESHOLD),
        .dtwintt = htole64(PUT_TIME_THRESHOLD),
    };
}

/* In D, after an excursion and with two warnings: each estimate is what the charges left. */
static struct nvme_nvmset_predictable_lat_log log_page(void)
{
    return (struct nvme_nvmset_predictable_lat_log){
        .status = NVME_NVMSET_PL_STATUS_DTWIN,
        .event_type = htole16(NVME_NVMSET_PL_EVENT_DTWIN_EXCURSION | NVME_NVMSET_PL_EVENT_DTWIN_READ_WARN |
                              NVME_NVMSET_PL_EVENT_DTWIN_TIME_WARN),
        .dtwin_rt = htole64(PUT_READS),
        .dtwin_wt = htole64(PUT_WRITES),
        .dtwin_tmax = htole64(PUT_TIME),
        .ndwin_tmin_hi = htole64(PUT_HIGH),
        .ndwin_tmin_lo = htole64(PUT_LOW),
        .dtwin_re = htole64(PUT_READS - PUT_READS_DONE),
        .dtwin_we = htole64(PUT_WRITES - PUT_WRITES_DONE),
        .dtwin_te = htole64(PUT_TIME - PUT_TIME_GONE),
    };
}

static void put_capacity(__u8 capacity[16], uint64_t value)
{
    uint64_t bytes = htole64(value);
    memcpy(capacity, &bytes, sizeof bytes);
}

/* The two sets differ in their identifier alone. */
static struct nvme_nvmset_attr entry(uint16_t identifier)
{
    struct nvme_nvmset_attr entry = {
        .nvmsetid = htole16(identifier),
        .endgid = htole16(PUT_GROUP),
        .rr4kt = htole32(PUT_RANDOM_READ),
        .ows = htole32(PUT_WRITE_SIZE),
    };
    put_capacity(entry.tnvmsetcap, PUT_TOTAL);
    put_capacity(entry.unvmsetcap, PUT_UNALLOCATED);
    return entry;
}

static struct nvme_id_nvmset_list set_list(void)
{
    return (struct nvme_id_nvmset_list){.nid = 2, .ent = {entry(PUT_ID), entry(PUT_OTHER_ID)}};
}

/* A structure with a last array of no length is made in a buffer of the page's size. */
union aggregate_page {
    struct nvme_aggregate_predictable_lat_event log;
    __u8 bytes[8 + 2 * ENTRIES_0BH];
};

static union aggregate_page aggregate_page(void)
{
    union aggregate_page page;
    memset(&page, 0, sizeof page);
    page.log.num_entries = htole64(2);
    page.log.entries[0] = htole16(PUT_ID);
    page.log.entries[1] = htole16(PUT_OTHER_ID);
    return page;
}

static struct nvme_id_ctrl controller_page(void)
{
    return (struct nvme_id_ctrl){.nsetidmax = htole16(ENTRIES_0BH)};
}

/* The pages as they are */

static size_t load(const char *folder, const char *name, __u8 *bytes, size_t room)
{
    char path[4096];
    snprintf(path, sizeof path, "%s/%s", folder, name);
    FILE *file = fopen(path, "rb");
    size_t length = file ? fread(bytes, 1, room, file) : 0;
    if (file)
        fclose(file);
    return length;
}

static bool same(const char *folder, const char *name, const void *expected, size_t length)
{
    __u8 found[4097];
    size_t found_length = load(folder, name, found, sizeof found);
    if (found_length != length) {
        printf("%s: %zu bytes, not %zu\n", name, found_length, length);
        return false;
    }
    for (size_t i = 0; i < length; i++) {
        __u8 byte = ((const __u8 *)expected)[i];
        if (found[i] != byte) {
            printf("%s: byte %zu is %02Xh, not %02Xh\n", name, i, found[i], byte);
            return false;
        }
    }
    return true;
}

static bool check(const char *folder)
{
    struct nvme_plm_config config = config_page();
    struct nvme_nvmset_predictable_lat_log log = log_page();
    struct nvme_id_nvmset_list sets = set_list();
    struct nvme_id_ctrl controller = controller_page();
    union aggregate_page aggregate = aggregate_page();

    /* every page is compared, so that one run tells of all that differ */
    return same(folder, "config", &config, sizeof config) & same(folder, "0Ah", &log, sizeof log) &
           same(folder, "0Bh", &aggregate, sizeof aggregate) & same(folder, "sets", &sets, sizeof sets) &
           same(folder, "controller", &controller, sizeof controller);
}

int main(int argc, char **argv)
{
    if (argc == 2 && strcmp(argv[1], "config") == 0) {
        struct nvme_plm_config config = config_page();
        return fwrite(&config, sizeof config, 1, stdout) == 1 ? 0 : 1;
    }
    if (argc == 3 && strcmp(argv[1], "check") == 0)
        return check(argv[2]) ? 0 : 1;
    fputs("layout config | layout check FOLDER\n", stderr);
    return 2;
}
