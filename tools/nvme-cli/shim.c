/*
 * Preloaded into nvme-cli: one device name is answered by the card, all else passes through to the C library.
 *
 * CARD_DEVICE  the device name that is taken over
 * CARD_SERVER  a program which, run as "CARD_SERVER CARD_TABLE serve", holds the card (media, which runs card.c's program)
 * CARD_TABLE   the file in which that program keeps the card's table
 *
 * The card is x86-64 code and nvme-cli is native, so on a machine of another kind the two cannot share a process: opening the
 * device starts the card's process, and the file descriptor that nvme-cli gets is the shim's end of a pair of sockets to it.
 */
#define _GNU_SOURCE
#include <dlfcn.h>
#include <errno.h>
#include <fcntl.h>
#include <linux/nvme_ioctl.h>
#include <stdarg.h>
#include <stdbool.h>
#include <stdio.h>
#include <stdlib.h>
#include <string.h>
#include <sys/ioctl.h>
#include <sys/socket.h>
#include <sys/stat.h>
#include <sys/wait.h>
#include <unistd.h>

#include "../../examples/firmware/bytes.h"
#include "../../include/card.h"
#include "wire.h"

/* The one open device; nvme-cli opens no second. */
static int card_socket = -1;
static pid_t card_process;

/* The C library's own function of that name. */
#define REAL(name) ((__typeof__(&name))dlsym(RTLD_NEXT, #name))

static bool is_device(const char *path)
{
    const char *device = getenv("CARD_DEVICE");
    return device && path && strcmp(path, device) == 0;
}

static bool is_card(int fd)
{
    return fd >= 0 && fd == card_socket;
}

/* The pair of sockets and the process */

static void become_server(int end)
{
    const char *server = getenv("CARD_SERVER"), *table = getenv("CARD_TABLE");
    unsetenv("LD_PRELOAD");
    if (server && table && dup2(end, 0) == 0 && dup2(end, 1) == 1)
        execl(server, server, table, "serve", (char *)NULL);
    _exit(127);
}

static int open_card(void)
{
    int ends[2];
    if (card_socket >= 0) {
        errno = EBUSY;
        return -1;
    }
    if (socketpair(AF_UNIX, SOCK_STREAM | SOCK_CLOEXEC, 0, ends) != 0)
        return -1;
    card_process = fork();
    if (card_process == 0)
        become_server(ends[1]);
    REAL(close)(ends[1]);
    if (card_process < 0) {
        REAL(close)(ends[0]);
        return -1;
    }
    card_socket = ends[0];
    return card_socket;
}

static int close_card(void)
{
    int result = REAL(close)(card_socket);
    card_socket = -1;
    waitpid(card_process, NULL, 0);
    return result;
}

static bool say(const void *bytes, size_t count)
{
    return count == 0 || send(card_socket, bytes, count, MSG_NOSIGNAL) == (ssize_t)count;
}

static bool hear(void *bytes, size_t count)
{
    return count == 0 || recv(card_socket, bytes, count, MSG_WAITALL) == (ssize_t)count;
}

/* Commands. Both forms of the passthru structure are alike up to the place of the result. Its reserved field lies where an entry has
 * the command identifier, which a kernel chooses: here nvme-cli may, so that a request which waits can be told from others. */

static void put_entry(uint8_t *entry, const struct nvme_passthru_cmd64 *c)
{
    const uint32_t dwords[] = {c->cdw10, c->cdw11, c->cdw12, c->cdw13, c->cdw14, c->cdw15};
    memset(entry, 0, CARD_COMMAND_BYTES);
    put_number(entry, 1, c->opcode);
    put_number(entry + 1, 1, c->flags);
    put_number(entry + 2, 2, c->rsvd1);
    put_dword(entry, 1, c->nsid);
    put_dword(entry, 2, c->cdw2);
    put_dword(entry, 3, c->cdw3);
    for (unsigned n = 0; n < 6; n++)
        put_dword(entry, 10 + n, dwords[n]);
}

/* Bits 1:0 of an opcode say which way its data goes: 1 to the controller, 2 to the host. */
static uint32_t length_if(const struct nvme_passthru_cmd64 *c, unsigned direction)
{
    uint32_t length = c->data_len < WIRE_DATA_BYTES ? c->data_len : WIRE_DATA_BYTES;
    return (c->opcode & 3) == direction ? length : 0;
}

/* nvme-cli has no place for a notice, which completes another command than the one it waits for: so it is told beside. */
static void tell_notice(const uint8_t *notice)
{
    const uint8_t *id = notice + CARD_REPLY_NOTICE_ID - CARD_REPLY_NOTICE;
    const uint8_t *dword0 = notice + CARD_REPLY_NOTICE_DWORD_0 - CARD_REPLY_NOTICE;
    if (*notice)
        dprintf(STDERR_FILENO, "%04X %08lX\n", (unsigned)get_number(id, 2), (unsigned long)get_number(dword0, 4));
}

/* The command's status, or -1 where the card's process is gone. */
static int ask_card(const struct nvme_passthru_cmd64 *c, uint32_t *dword0)
{
    uint8_t request[REQUEST_BYTES], reply[REPLY_BYTES];
    void *buffer = (void *)(uintptr_t)c->addr;
    uint32_t data = length_if(c, 1), room = length_if(c, 2);

    put_entry(request, c);
    put_number(request + REQUEST_DATA, 4, data);
    put_number(request + REQUEST_ROOM, 4, room);
    if (!say(request, sizeof request) || !say(buffer, data) || !hear(reply, sizeof reply) ||
        get_number(reply + REPLY_DATA, 4) > room || !hear(buffer, get_number(reply + REPLY_DATA, 4))) {
        errno = EIO;
        return -1;
    }
    tell_notice(reply + REPLY_NOTICE);
    *dword0 = (uint32_t)get_number(reply + REPLY_DWORD0, 4);
    return (int)get_number(reply + REPLY_STATUS, 2);
}

/*
 * THE ONE THING THAT THE SHIM ANSWERS ITSELF, until the card does: Identify Controller (CNS 01h).
 * pred-lat-event-agg-log asks it for the maximum set identifier (NSETIDMAX, bytes 339:338), by which it reckons how much of the
 * aggregate log to read: 8 + 2 x CARD_MAX_SETS bytes are the whole page. All other bytes are zero.
 */
static bool is_identify_controller(const struct nvme_passthru_cmd64 *c)
{
    return c->opcode == 0x06 && (c->cdw10 & 0xFF) == 0x01;
}

static int identify_controller(const struct nvme_passthru_cmd64 *c)
{
    uint8_t page[4096] = {0};
    put_number(page + 338, 2, CARD_MAX_SETS);
    memcpy((void *)(uintptr_t)c->addr, page, length_if(c, 2));
    return CARD_OK;
}

static int carry_out(const struct nvme_passthru_cmd64 *c, uint32_t *dword0)
{
    *dword0 = 0;
    return is_identify_controller(c) ? identify_controller(c) : ask_card(c, dword0);
}

static int carry_out_32(struct nvme_passthru_cmd *c)
{
    struct nvme_passthru_cmd64 wide;
    memset(&wide, 0, sizeof wide);
    memcpy(&wide, c, offsetof(struct nvme_passthru_cmd, result));
    return carry_out(&wide, &c->result);
}

static int carry_out_64(struct nvme_passthru_cmd64 *c)
{
    uint32_t dword0;
    int status = carry_out(c, &dword0);
    c->result = dword0;
    return status;
}

/* What nvme-cli calls */

static int card_stat(struct stat64 *about)
{
    memset(about, 0, sizeof *about);
    about->st_mode = S_IFCHR | 0600;
    return 0;
}

/* A mode is passed only where a file may be made. */
static bool makes_file(int flags)
{
    return (flags & O_CREAT) || (flags & O_TMPFILE) == O_TMPFILE;
}

#define OPEN_LIKE(name)                                            \
    int name(const char *path, int flags, ...)                     \
    {                                                              \
        va_list rest;                                              \
        va_start(rest, flags);                                     \
        mode_t mode = makes_file(flags) ? va_arg(rest, mode_t) : 0; \
        va_end(rest);                                              \
        return is_device(path) ? open_card() : REAL(name)(path, flags, mode); \
    }

OPEN_LIKE(open)
OPEN_LIKE(open64)

/* The form that a compiler uses where it sees that no mode is passed. */
int __open64_2(const char *path, int flags)
{
    return open64(path, flags);
}

#define STAT_LIKE(name, type)                                                              \
    int name(const char *path, struct type *about)                                         \
    {                                                                                      \
        return is_device(path) ? card_stat((struct stat64 *)about) : REAL(name)(path, about); \
    }

STAT_LIKE(stat, stat)
STAT_LIKE(stat64, stat64)

#define FSTAT_LIKE(name, type)                                                         \
    int name(int fd, struct type *about)                                               \
    {                                                                                  \
        return is_card(fd) ? card_stat((struct stat64 *)about) : REAL(name)(fd, about); \
    }

FSTAT_LIKE(fstat, stat)
FSTAT_LIKE(fstat64, stat64)

int ioctl(int fd, unsigned long request, ...)
{
    va_list rest;
    va_start(rest, request);
    void *argument = va_arg(rest, void *);
    va_end(rest);
    if (!is_card(fd))
        return REAL(ioctl)(fd, request, argument);
    switch (request) {
    case NVME_IOCTL_ADMIN_CMD:
        return carry_out_32(argument);
    case NVME_IOCTL_ADMIN64_CMD:
        return carry_out_64(argument);
    default:
        errno = ENOTTY;
        return -1;
    }
}

int close(int fd)
{
    return is_card(fd) ? close_card() : REAL(close)(fd);
}
