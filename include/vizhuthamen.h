/*
 * Vizhuthamen: verifiable data aggregation (FRC-0058), proved.
 *
 * Every function but the last two answers one of the codes below, for any bytes and numbers; vz_playback may answer
 * VZ_WRONG_LINE too, which is none. Lent memory is a pointer and a length; a pointer may be dangling only where its
 * length is 0, and is never NULL. Memory that is written must not overlap any other argument.
 *
 * An output that has one fixed length is refused with 12, before all else, where it has another; a table of owners is
 * refused with 23 right after 2, a second deal with 12 after that, a tree with 12 right after 11. Outputs are written
 * with code 0 (numbers also with 15 in the bookings, strings with 17 in the settlings) and left as they were with every
 * other code. A stream's state is written by vz_stream_take with every code but 12; vz_playback says what it writes.
 *
 * docs/FORMAT.md has the index, the entry, the record and the log byte by byte.
 */
#ifndef VIZHUTHAMEN_H
#define VIZHUTHAMEN_H

#include <stddef.h>
#include <stdint.h>

#ifdef __cplusplus
extern "C" {
#endif

/* The version of this header, as text and as a number: 10000 x first + 100 x second + third. While the first is 0, the
 * second rises where a program has to be changed or compiled anew. */
#define VZ_VERSION "0.5.0"
#define VZ_VERSION_NUMBER 500

/* Lengths in bytes. */
#define VZ_MAX_DEAL 16777216                /* the largest deal that is lent, 2^24; so too run and message */
#define VZ_MAX_TABLE 128                    /* the longest table of owners, that of a deal of 2^24; so too its states */
#define VZ_MAX_RECORD 1973                  /* the longest record that is accepted, and so the longest that is built */
#define VZ_MAX_RAW 8323072                  /* the longest raw archive; its segment has 2^23 */
#define VZ_MAX_STREAM UINT64_C(68719476736) /* the most that a stream takes, 2^36; so too the size of a deal */
#define VZ_STREAM_STATE 1072                /* a stream's state */
#define VZ_BOOKING_LINE 61                  /* a line of a log for a booking, with its tag and its length */
#define VZ_CANCELLING_LINE 13               /* a line of a log for a cancellation, with its tag and its length */
#define VZ_ROW 57                           /* a row of a ledger */
#define VZ_ROWS 7296                        /* the rows of a ledger: VZ_MAX_TABLE of them */

/* What vz_playback answers for a line whose answers the rules do not give: a number past all codes. */
#define VZ_WRONG_LINE 256

/* Every code: its number, its name, its meaning. */
#define VZ_CODES(code)                                                                                               \
  code(0, VZ_OK, "done, accepted, or both records the same")                                                         \
  code(1, VZ_COMMITMENT_LENGTH, "a commitment is not 32 bytes long")                                                 \
  code(2, VZ_SIZE, "a deal, run, stream, message, raw archive or entry size is not allowed")                         \
  code(3, VZ_FORM, "the tags, order, lengths or end of a record are wrong, or a log is malformed")                   \
  code(4, VZ_SEGMENT_SIZE, "segment size not allowed for this deal size")                                            \
  code(5, VZ_OFFSET, "offset not a multiple of the segment's area, or the area ends beyond the index start")         \
  code(6, VZ_PLACE, "entry place not a multiple of 64, or outside the index area")                                   \
  code(7, VZ_PATH_LENGTH, "a path has another number of nodes than it must have")                                    \
  code(8, VZ_COMMITMENT_BITS, "the segment commitment has stray bits")                                               \
  code(9, VZ_SEGMENT_PATH, "the segment path does not lead to the deal commitment")                                  \
  code(10, VZ_ENTRY_PATH, "the entry path does not lead to the deal commitment")                                     \
  code(11, VZ_STRAY_BITS, "a node of a run, deal, stream or segment has stray bits")                                 \
  code(12, VZ_OUTPUT, "an output is too short, or an output, second deal or tree is not of its one length")          \
  code(13, VZ_NO_SLOT, "no slot is free")                                                                            \
  code(14, VZ_NO_PLACE, "no free place")                                                                             \
  code(15, VZ_ALREADY_KEPT, "the segment is kept already")                                                           \
  code(16, VZ_NOT_KEPT, "no kept entry at that place, or with that commitment; to cancel, none of the house stands") \
  code(17, VZ_COLLISION, "two different 64-byte strings with one node hash are shown")                               \
  code(18, VZ_OTHER_PLACE, "the two records name different entry places")                                            \
  code(19, VZ_PATH_BITS, "a node of a path has stray bits")                                                          \
  code(20, VZ_OVERLAP, "two standing entries overlap")                                                               \
  code(21, VZ_DEAL_NUMBER, "the record's deal number differs from the caller's")                                     \
  code(22, VZ_QUOTA, "the house holds half the slots or more")                                                       \
  code(23, VZ_HOUSE, "the house is neither 1 nor 2, or a table of owners has not one byte a slot")                   \
  code(24, VZ_SEGMENT_LENGTH, "the segment has another length than the raw length gives")

#define VZ_CODE_NUMBER(number, name, meaning) name = number,
enum { VZ_CODES(VZ_CODE_NUMBER) };
#undef VZ_CODE_NUMBER

/* The kind of an index entry. */
enum {
  VZ_BLANK = 0,   /* all 64 bytes are zero */
  VZ_DAMAGED = 1, /* some byte is not zero, and the checksum is wrong */
  VZ_VALID = 2    /* the checksum is right */
};

/* The state of a slot of a deal, by which an audit tells sound entries from others. */
enum {
  VZ_SLOT_BLANK = 0,            /* all 64 bytes are zero */
  VZ_SLOT_DAMAGED = 1,          /* some byte is not zero, and the checksum is wrong */
  VZ_SLOT_NOT_STANDING = 2,     /* the checksum is right, but the size or the offset is not allowed in the deal */
  VZ_SLOT_OVERLAPPING = 3,      /* the entry stands, and overlaps one that stands in a lower slot */
  VZ_SLOT_WRONG_COMMITMENT = 4, /* the entry stands, but its commitment is not that of the bytes at its offset */
  VZ_SLOT_KEPT = 5              /* the entry stands, and its commitment is that of the bytes at its offset */
};

/* SHA-256 of a message of 0 to 2^24 bytes. digest: 32 bytes. Codes: 2. */
uint32_t vz_sha256(const uint8_t *message, size_t message_len, uint8_t *digest, size_t digest_len);

/* The commitment of a run, a power of two from 32 to 2^24 bytes. node: 32 bytes. Codes: 2, 11. */
uint32_t vz_commitment(const uint8_t *run, size_t run_len, uint8_t *node, size_t node_len);

/* A stream's state has VZ_STREAM_STATE bytes. The caller keeps it, and hands it on as it came back: then the answer at
 * the end is that for all bytes, however they were cut. The integrity of a stored state is the caller's: nothing in it
 * tells whether its bytes were changed. Any bytes of this length are answered: a code in them that is none of a
 * stream's sticks too, and counts as 2. */

/* The commitment of bytes that arrive in pieces: a new start. state: VZ_STREAM_STATE bytes. Codes: 12. */
uint32_t vz_stream_new(uint8_t *state, size_t state_len);

/* Takes one more piece, of any length, and answers the state's code: 0, or 2 or 11, which stick until vz_stream_new.
 * Bytes are judged in turn: 11 where a node is completed that has stray bits, 2 at the first byte past 2^36. Codes: 12
 * (the state is left as it was), 11, 2. */
uint32_t vz_stream_take(uint8_t *state, size_t state_len, const uint8_t *piece, size_t piece_len);

/* The commitment of all bytes taken so far, and their number, a power of two from 32 to 2^36. The state stays: more
 * pieces may be taken. node: 32 bytes. With 11 and 2, node and *count stay as they were. Codes: 12, 11, 2. */
uint32_t vz_stream_end(const uint8_t *state, size_t state_len, uint8_t *node, size_t node_len, uint64_t *count);

/* Fr32 padding: writes the segment of raw_len raw bytes, 1 to VZ_MAX_RAW, into the first bytes of segment, and answers
 * its length, raw_len x 128 / 127 rounded up; the rest of segment stays. 2^23 bytes hold any segment. Codes: 2, 12.
 *
 * The commitment of a longer archive, of up to 2^36 bytes after padding, by parts: pad every 127 x 2^11 raw bytes, and
 * those that are left at the end, into 2^18 zeros, and give the stream above vz_commitment of each, then that of 2^18
 * zeros until their number is a power of two. The stream ends with the commitment of the whole segment, filled with
 * zeros: raw_by_parts, crates/vizhuthamen/specs/RawByParts.antt. */
uint32_t vz_fr32_pad(const uint8_t *raw, size_t raw_len, uint8_t *segment, size_t segment_len, uint64_t *length);

/* The way back: writes the raw_length raw bytes of a segment into the first bytes of raw, and answers their number;
 * the rest of raw stays. Codes: 2 for raw_length, 24, 11 for stray bits in whole nodes or any bit set after the last
 * raw one, 12. */
uint32_t vz_fr32_unpad(uint64_t raw_length, const uint8_t *segment, size_t segment_len, uint8_t *raw, size_t raw_len,
                       uint64_t *length);

/* The number of index entries and the index start for a deal size, a power of two from 512 to 2^36. Codes: 2. */
uint32_t vz_index_numbers(uint64_t size, uint64_t *entries, uint64_t *start);

/* The index entry for a commitment of 32 bytes and two numbers, taken as they are. entry: 64 bytes. Codes: 1, 8. */
uint32_t vz_make_entry(const uint8_t *commitment, size_t commitment_len, uint64_t offset, uint64_t size,
                       uint8_t *entry, size_t entry_len);

/* What the 64 bytes of an entry say: its kind, VZ_BLANK, VZ_DAMAGED or VZ_VALID, with the three fields where it is
 * valid, and zeros otherwise. commitment: 32 bytes. Codes: 2. */
uint32_t vz_read_entry(const uint8_t *entry, size_t entry_len, uint32_t *kind, uint8_t *commitment,
                       size_t commitment_len, uint64_t *offset, uint64_t *size);

/* The audit of a deal, whoever has made it: writes the state of every slot, VZ_SLOT_BLANK to VZ_SLOT_KEPT, one byte
 * each, into the first bytes of states, as many as vz_index_numbers has entries; the rest stays. VZ_MAX_TABLE bytes
 * hold the states of any deal. Where two states apply, the lower number is written, so that VZ_SLOT_OVERLAPPING says
 * nothing of the commitment. A deal that was made by vz_book alone, from all zeros, shows only VZ_SLOT_BLANK and
 * VZ_SLOT_KEPT. Codes: 2, 11, 12 for fewer bytes than slots. */
uint32_t vz_audit(const uint8_t *deal, size_t deal_len, uint8_t *states, size_t states_len);

/* How many slots of a deal's index are blank, damaged and valid; together they are the number of entries. Codes: 2,
 * 11. */
uint32_t vz_tally(const uint8_t *deal, size_t deal_len, uint64_t *blank, uint64_t *damaged, uint64_t *valid);

/* The lowest slot that holds a kept entry with this commitment; the segment is the size bytes of the deal at offset,
 * without the zeros after it. Codes: 1, 2, 11, 16. */
uint32_t vz_find(const uint8_t *deal, size_t deal_len, const uint8_t *commitment, size_t commitment_len,
                 uint64_t *offset, uint64_t *size, uint64_t *place);

/* Two houses, 1 and 2, book in one deal. Whose entry a slot holds says the deal's table of owners, which the caller
 * keeps beside the deal: one byte a slot, as many as vz_index_numbers has entries; 1 or 2 for the owner, any other
 * byte for nobody. A byte counts only where an entry stands in its slot. A new deal's table is all zeros. vz_book sets
 * the byte of the slot, vz_cancel clears it, vz_collect writes a second table. Any other house, and any other length
 * of a table, is refused with 23. */

/* Books a segment of 1 byte to half of the deal for a house. With 0 it is written into the deal with zeros after it to
 * its area's end, and its entry, and the house into the slot's byte of the table; no other byte changes. The area is
 * the smallest power of two at or above both the size and 128. The numbers are written with 0, and with 15: the
 * house's lowest slot that keeps the segment. What others keep does not count for 15. Codes: 23 (house), 2, 23
 * (table), 4, 11, 15, 22 where the house's entries stand in half of the slots or more, kept or not, 13, 14. */
uint32_t vz_book(uint8_t *deal, size_t deal_len, uint8_t *table, size_t table_len, uint8_t house,
                 const uint8_t *segment, size_t segment_len, uint64_t *offset, uint64_t *place);

/* Cancels the house's entry that stands at a place, kept or not: with 0 its 64 bytes and the slot's byte of the table
 * are zeros, and no other byte changes. Its slot is then free for booking, and so are its segment's bytes wherever no
 * other standing entry covers them. Codes: 23 (house), 2, 23 (table), 11, 6, 16 where no entry of the house stands. */
uint32_t vz_cancel(uint8_t *deal, size_t deal_len, uint8_t *table, size_t table_len, uint8_t house, uint64_t place);

/* Collects a deal: with 0 second, of deal_len bytes, is a new deal without gaps, whatever it held. The segments of the
 * standing entries, all bytes of each area, are packed from 0 by falling area, equal ones by old offset; the entries,
 * with commitment and size as they were, stand from the first slot on in that order; all else is zero. second_table
 * gets each entry's byte, as it was, for its new slot, and zeros after them. The deal itself and its table stay;
 * records that were built from it belong to its commitment, not to the new deal's. Codes: 2, 23 for a table of any
 * other length, 12 for a second deal of any other length, 11, 20. */
uint32_t vz_collect(const uint8_t *deal, size_t deal_len, const uint8_t *table, size_t table_len, uint8_t *second,
                    size_t second_len, uint8_t *second_table, size_t second_table_len);

/* A log has a line for every booking and every cancellation in a deal whose code gets one, in their order. A line is a
 * field, as those of a record are: a tag of one byte, the length of its content in two bytes, and the content. Numbers
 * are little-endian.
 *
 *   tag 1, length 58   a booking that was answered 0, 13, 14, 15 or 22: house, 1 byte; commitment of the segment's
 *                      area, 32; size, 8; code, 1; offset, 8; place, 8. The last two are 0 but with 0 and 15.
 *   tag 2, length 10   a cancellation that was answered 0 or 16: house, 1; place, 8; code, 1
 *
 * Calls with other codes get no line. A log begins with an all-zero deal, and a collection ends it. It is malformed
 * where a tag, a length or its end is wrong, a house is neither 1 nor 2, a segment's size is not allowed in the deal,
 * or a code is none of its tag's. */

/* Plays a log back, without the deal: on an empty ledger of rows for a deal of this size, 512 to 2^24, every line is
 * judged in turn by the rules of vz_book and vz_cancel. Commitments are taken as they are; a booking is answered 15
 * where the house has a row of equal size and commitment. rows: VZ_ROWS bytes. The answer is
 *
 *   0               where the rules give the answers of every line. *count rows are written, by rising place, each of
 *                   VZ_ROW bytes: house, 1; commitment, 32; size, 8; offset, 8; place, 8. Zeros follow to the end.
 *   VZ_WRONG_LINE   where they do not. *line is the number, from 1, of the first such line; *code, *offset and *place
 *                   are what the rules give for it. With a cancellation these are its code and zeros.
 *   a code          of these: 12, 2, 3 for a log that is malformed anywhere, which is judged before any line is played.
 *
 * Nothing else is written. A log of all such calls from an all-zero deal on, which they alone have changed, is answered
 * 0, and its rows are the deal's standing entries, if no two different segments have one commitment and size. */
uint32_t vz_playback(uint64_t size, const uint8_t *log, size_t log_len, uint64_t *line, uint32_t *code,
                     uint64_t *offset, uint64_t *place, uint64_t *count, uint8_t *rows, size_t rows_len);

/* A record names its deal by the deal's number, any 64 bits. A deal's bytes do not hold it: building, checking and
 * settling take it from the caller. */

/* Builds the inclusion record of the entry at a place, for the deal of this number: it fills the first length bytes of
 * record, the rest stays. VZ_MAX_RECORD bytes hold any record. Codes: 2, 11, 6, 16, 12. */
uint32_t vz_build(const uint8_t *deal, size_t deal_len, uint64_t number, uint64_t place, uint8_t *record,
                  size_t record_len, uint64_t *length);

/* Checks a record against a deal's commitment, size and number. Codes, in this order: 1, 2, 3, 21, 4, 5, 6, 7, 8, 19,
 * 9, 10. */
uint32_t vz_check(const uint8_t *commitment, size_t commitment_len, uint64_t size, uint64_t number,
                  const uint8_t *record, size_t record_len);

/* Settles two records for one deal commitment, size and number: 0, with zeros in left and right (64 bytes each),
 * exactly where both are accepted and the same bytes; 17 with two different strings there that have one node hash.
 * Codes: the first one's check, the second one's, 18, 17. */
uint32_t vz_settle_records(const uint8_t *commitment, size_t commitment_len, uint64_t size, uint64_t number,
                           const uint8_t *first, size_t first_len, const uint8_t *second, size_t second_len,
                           uint8_t *left, size_t left_len, uint8_t *right, size_t right_len);

/* Settles a record with a deal in hand: 0, with zeros, exactly where building at its place with this number would write
 * it; 17 with a pair as above. Codes: 2, 11, those of the check against the deal's own commitment and length and this
 * number, 17. */
uint32_t vz_settle_with_deal(const uint8_t *deal, size_t deal_len, uint64_t number, const uint8_t *record,
                             size_t record_len, uint8_t *left, size_t left_len, uint8_t *right, size_t right_len);

/* The tree of a deal of D bytes: a buffer that the caller keeps beside the deal, with every inner node of its tree,
 * heights from the bottom, left to right: node i of height h, from 1 on, stands at D - D / 2^(h - 1) + 32 i, and the
 * deal's commitment in the last 32 bytes. It has D - 32 bytes; any other length, longer ones too, is refused with 12.
 *
 * The functions that take a tree take every inner node that they need as it stands there, and hash little of the deal.
 * With a tree that was filled for the deal, where since then both were changed by vz_tree_fill, vz_book_with_tree and
 * vz_cancel_with_tree alone, their answers are those of the functions without one. With any other tree they answer too,
 * but a record that is built may be refused by vz_check, a kept segment may be booked again, and the two strings of a
 * settling may have two node hashes. vz_collect_with_tree fills a tree for the second deal, as vz_tree_fill would; the
 * deal's own tree it does not need. */

/* Writes every inner node of a deal into its tree. Codes: 2, 11, 12. */
uint32_t vz_tree_fill(const uint8_t *deal, size_t deal_len, uint8_t *tree, size_t tree_len);

/* Writes the nodes over the pairs of nodes of below into above: node i is the node hash of the 64 bytes at 64 i. So a
 * tree can be filled in parts, each row, or any part of a row, from the nodes below it, by several threads at once
 * where the parts do not overlap: once every inner node is written from its children as they then stand, the tree is
 * the one that vz_tree_fill writes. Stray bits are not looked for. Codes: 12 where below is no whole number of pairs,
 * or above not half as long. */
uint32_t vz_tree_row(const uint8_t *below, size_t below_len, uint8_t *above, size_t above_len);

/* vz_book with the tree in hand. An entry is kept where its commitment is the node over its area in the tree. With 0
 * every node above the bytes that are written to the deal is worked out anew, from the bottom up; no other byte of the
 * tree changes. Codes: 23 (house), 2, 23 (table), 4, 11, 12, 15, 22, 13, 14. */
uint32_t vz_book_with_tree(uint8_t *deal, size_t deal_len, uint8_t *tree, size_t tree_len, uint8_t *table,
                           size_t table_len, uint8_t house, const uint8_t *segment, size_t segment_len,
                           uint64_t *offset, uint64_t *place);

/* vz_cancel with the tree in hand. With 0 every node above the 64 bytes is worked out anew, from the bottom up; no
 * other byte of the tree changes. Codes: 23 (house), 2, 23 (table), 11, 12, 6, 16. */
uint32_t vz_cancel_with_tree(uint8_t *deal, size_t deal_len, uint8_t *tree, size_t tree_len, uint8_t *table,
                             size_t table_len, uint8_t house, uint64_t place);

/* vz_collect with a tree for the second deal: with 0 it holds every inner node of the new deal, whatever it held.
 * Codes: 2, 23, 12 (second deal), 11, 12 (tree), 20. */
uint32_t vz_collect_with_tree(const uint8_t *deal, size_t deal_len, const uint8_t *table, size_t table_len,
                              uint8_t *second, size_t second_len, uint8_t *tree, size_t tree_len,
                              uint8_t *second_table, size_t second_table_len);

/* vz_build with the tree in hand: whether the entry is kept, and the nodes of both paths, are read there. Codes: 2, 11,
 * 12 (tree), 6, 16, 12 (record). */
uint32_t vz_build_with_tree(const uint8_t *deal, size_t deal_len, const uint8_t *tree, size_t tree_len,
                            uint64_t number, uint64_t place, uint8_t *record, size_t record_len, uint64_t *length);

/* vz_settle_with_deal with the tree in hand: the record is checked against the tree's last node, deal_len and the
 * number, and the deal's strings are the pairs of nodes in the tree, and the entry's 64 bytes of the deal. Codes: 2,
 * 11, 12, those of the check, 17. */
uint32_t vz_settle_with_tree(const uint8_t *deal, size_t deal_len, const uint8_t *tree, size_t tree_len,
                             uint64_t number, const uint8_t *record, size_t record_len, uint8_t *left, size_t left_len,
                             uint8_t *right, size_t right_len);

/* The field at a place of a record: its tag, where its content starts, the content's length, the next field's place.
 * Codes: 3 where no field lies there. */
uint32_t vz_read_field(const uint8_t *record, size_t record_len, uint64_t place, uint32_t *tag, uint64_t *start,
                       uint64_t *length, uint64_t *next);

/* The two below are no part of the proved module, but C beside it (c/about.c): they are in the libraries that make
 * writes and installs, and not in the one of tools/library alone. Their texts stay as long as the program runs. */

/* What a code means, in words; "unknown code" for a number that is none. */
const char *vz_meaning(uint32_t code);

/* The version of the library: VZ_VERSION of the header that it was made with. */
const char *vz_version(void);

#ifdef __cplusplus
}
#endif

#endif
