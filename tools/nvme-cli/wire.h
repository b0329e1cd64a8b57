/* What the shim and the process that holds the card say to each other: one request, one reply, in turn. Numbers are
 * little-endian.
 *
 * Request: the 64 bytes of the command, the number of data bytes that follow (4), the room for an answer (4), the data.
 * Reply: the status (2), dword 0 (4), the number of data bytes that follow (4), the notice beside the answer (8, as CARD_REPLY_NOTICE
 * and what follows it have it), the data.
 *
 * Neither direction carries more than WIRE_DATA_BYTES of data: the card takes at most 512 bytes and answers at most 4096. */
#ifndef WIRE_H
#define WIRE_H

#define WIRE_DATA_BYTES 4096

#define REQUEST_DATA 64
#define REQUEST_ROOM 68
#define REQUEST_BYTES 72

#define REPLY_STATUS 0
#define REPLY_DWORD0 2
#define REPLY_DATA 6
#define REPLY_NOTICE 10
#define REPLY_BYTES 18

#endif
