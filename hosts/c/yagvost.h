/* Yagvost, a rollback counter for groups of enclaves: what a host program calls.
 *
 * The functions stand in libhost_api.a, which `rt lib` in crates/host_api writes to its out/. They use no heap, keep
 * nothing from one call to the next, and touch only what they are lent. A pointer leads to as many bytes or numbers as
 * the length after it says (to nothing, where the length is 0), and what is written overlaps nothing else that the
 * call is lent. That is all they rely on: whatever bytes and numbers come, they end and answer.
 *
 * What a host owes: a host that runs nodes on machines of their own keeps the incarnation that a Start gives where no
 * rollback reaches it, before the first Fetch goes out, and never lets it fall or uses it twice; runs a node in one copy
 * at a time; and delivers only messages that a member of the group sent, unchanged. A store is written by nobody else
 * between two calls. docs/HOSTS.md says why. */
#ifndef YAGVOST_H
#define YAGVOST_H

#include <stdbool.h>
#include <stddef.h>
#include <stdint.h>

#ifdef __cplusplus
extern "C" {
#endif

/* A message store is 240 records of 272 bytes; record 0 is its head. */
#define YAGVOST_RECORD_BYTES 272
#define YAGVOST_RECORDS 240
#define YAGVOST_STORE_BYTES (YAGVOST_RECORD_BYTES * YAGVOST_RECORDS)

/* The room that run_script wants before it answers a line. */
#define YAGVOST_LINE_ROOM 72

/* The numbers of a record, in this order: next, kind, sender, addressee, sender's incarnation, other incarnation,
 * attempt, index, tag, and then fifteen rows of index and tag. */
#define YAGVOST_NUMBERS 39

/* Runs a drill script, for a group of its own, and prints its answers to out. Gives the number of bytes printed, or
 * SIZE_MAX where out has no room for all: enough is YAGVOST_LINE_ROOM * (number of line feeds in the script + 1). */
size_t yagvost_run_script(const uint8_t *script, size_t script_length, uint8_t *out, size_t out_length);

/* Whether these bytes are a sound message store of a group of n nodes. */
bool yagvost_is_sound(const uint8_t *store, size_t length, uint64_t n);

/* Reads the message in a record of these bytes, for a group of n nodes; count is YAGVOST_NUMBERS. False, and then no
 * number has changed, where there is no such record, where it is not a message, or where count is another. */
bool yagvost_read_record(const uint8_t *bytes, size_t length, uint64_t record, uint64_t n, uint64_t *numbers,
                         size_t count);

/* Writes a message over a record of these bytes, for a group of n nodes; count is YAGVOST_NUMBERS. False, and then no
 * byte has changed, where there is no such record, where the kind is not 1 to 6, where a number does not fit its field
 * or is not 0 though a message of this kind has no use for it, or where count is another. */
bool yagvost_write_record(uint8_t *bytes, size_t length, uint64_t record, uint64_t n, const uint64_t *numbers,
                          size_t count);

#ifdef __cplusplus
}
#endif

#endif
