/*
 * Every function of include/vizhuthamen.h once, from C: a segment of each of two houses in an all-zero deal of 512
 * bytes (document 01, "Run and compared"), the first one's record built, checked and settled; then the same with the
 * deal's tree in hand; then the first one cancelled, and the deal collected; then the log of these calls, played back.
 * Prints each code, and fails where an answer is another one.
 *
 *   tools/library
 *   gcc -Iinclude tests/c/smoke.c target/staticlib/libvizhuthamen.a -o target/smoke
 *   target/smoke
 */
#include <stdio.h>
#include <string.h>

#include "vizhuthamen.h"

static int failures;

/* An answer, and what it has to be. */
static void answer(const char *what, uint64_t got, uint64_t expected) {
  printf("%s: %llu\n", what, (unsigned long long)got);
  if (got != expected) {
    printf("  expected: %llu\n", (unsigned long long)expected);
    failures++;
  }
}

static uint8_t deal[512], table[4], first_segment[128], second_segment[128], third_segment[128];
static uint8_t commitment[32], deal_commitment[32], entry[64], record[VZ_MAX_RECORD], left[64], right[64];
static uint64_t offset, place, size, length, start, next, entries, blank, damaged, valid;
static uint32_t kind, tag;
static const uint64_t number = 0x0102030405060708; /* the deal's */

static void hashing(void) {
  static const uint8_t digest_of_abc[32] = {
      0xba, 0x78, 0x16, 0xbf, 0x8f, 0x01, 0xcf, 0xea, 0x41, 0x41, 0x40, 0xde, 0x5d, 0xae, 0x22, 0x23,
      0xb0, 0x03, 0x61, 0xa3, 0x96, 0x17, 0x7a, 0x9c, 0xb4, 0x10, 0xff, 0x61, 0xf2, 0x00, 0x15, 0xad};
  uint8_t digest[32];
  answer("sha256", vz_sha256((const uint8_t *)"abc", 3, digest, 32), VZ_OK);
  answer("sha256, FIPS vector", memcmp(digest, digest_of_abc, 32) == 0, 1);
  answer("sha256, output of 31 bytes", vz_sha256((const uint8_t *)"abc", 3, digest, 31), VZ_OUTPUT);
  answer("commitment", vz_commitment(first_segment, 128, commitment, 32), VZ_OK);
  answer("commitment of 96 bytes", vz_commitment(first_segment, 96, deal_commitment, 32), VZ_SIZE);
}

/* The first segment in two pieces, cut inside a node; then a node with stray bits. */
static void streaming(void) {
  uint8_t state[VZ_STREAM_STATE], node[32], stray[32];
  uint64_t count = 7;
  memset(stray, 0xff, 32);
  answer("stream, new start", vz_stream_new(state, sizeof state), VZ_OK);
  answer("stream, 50 bytes", vz_stream_take(state, sizeof state, first_segment, 50), VZ_OK);
  answer("stream, end after 50 bytes", vz_stream_end(state, sizeof state, node, 32, &count), VZ_SIZE);
  answer("stream, count left as it was with 2", count, 7);
  answer("stream, 78 bytes more", vz_stream_take(state, sizeof state, first_segment + 50, 78), VZ_OK);
  answer("stream, end", vz_stream_end(state, sizeof state, node, 32, &count), VZ_OK);
  answer("stream, commitment", memcmp(node, commitment, 32) == 0, 1);
  answer("stream, count", count, 128);
  answer("stream, stray bits", vz_stream_take(state, sizeof state, stray, 32), VZ_STRAY_BITS);
  answer("stream, nothing more", vz_stream_take(state, sizeof state, stray, 0), VZ_STRAY_BITS);
  answer("stream, end after stray bits", vz_stream_end(state, sizeof state, node, 32, &count), VZ_STRAY_BITS);
  answer("stream, count left as it was with 11", count, 128);
  answer("stream, state of 1071 bytes", vz_stream_new(state, sizeof state - 1), VZ_OUTPUT);
}

/* 128 raw bytes to a segment of 130, and back. */
static void padding(void) {
  uint8_t raw[128], segment[132], back[130];
  memset(raw, 0xff, 128);
  memset(segment, 7, sizeof segment);
  memset(back, 7, sizeof back);
  answer("pad", vz_fr32_pad(raw, 128, segment, sizeof segment, &length), VZ_OK);
  answer("pad, length", length, 130);
  answer("pad, last byte of a node", segment[31], 0x3f);
  answer("pad, the rest of the output stays", segment[130] + segment[131], 14);
  answer("pad into 129 bytes", vz_fr32_pad(raw, 128, segment, 129, &length), VZ_OUTPUT);
  answer("pad nothing", vz_fr32_pad(raw, 0, segment, sizeof segment, &length), VZ_SIZE);
  answer("unpad", vz_fr32_unpad(128, segment, 130, back, sizeof back, &length), VZ_OK);
  answer("unpad, length", length, 128);
  answer("unpad, raw bytes", memcmp(raw, back, 128) == 0, 1);
  answer("unpad, the rest of the output stays", back[128] + back[129], 14);
  answer("unpad 129 bytes", vz_fr32_unpad(129, segment, 130, back, sizeof back, &length), VZ_SEGMENT_LENGTH);
  segment[129] = 1;
  answer("unpad, a bit after the last", vz_fr32_unpad(128, segment, 130, back, sizeof back, &length), VZ_STRAY_BITS);
}

static void index_entries(void) {
  uint8_t read[32];
  answer("index numbers", vz_index_numbers(512, &entries, &start), VZ_OK);
  answer("index numbers, entries", entries, 4);
  answer("index numbers, start", start, 256);
  answer("make entry", vz_make_entry(commitment, 32, 0, 128, entry, 64), VZ_OK);
  answer("read entry", vz_read_entry(entry, 64, &kind, read, 32, &offset, &size), VZ_OK);
  answer("read entry, kind", kind, VZ_VALID);
  answer("read entry, commitment", memcmp(read, commitment, 32) == 0, 1);
  answer("read entry, size", size, 128);
  entry[40] ^= 1;
  answer("read a changed entry", vz_read_entry(entry, 64, &kind, read, 32, &offset, &size), VZ_OK);
  answer("read a changed entry, kind", kind, VZ_DAMAGED);
  memset(entry, 0, 64);
  answer("read an all-zero entry", vz_read_entry(entry, 64, &kind, read, 32, &offset, &size), VZ_OK);
  answer("read an all-zero entry, kind", kind, VZ_BLANK);
}

static void booking(void) {
  answer("book", vz_book(deal, 512, table, 4, 1, first_segment, 128, &offset, &place), VZ_OK);
  answer("book, offset", offset, 0);
  answer("book, place", place, 256);
  answer("book, owner", table[0], 1);
  answer("book again", vz_book(deal, 512, table, 4, 1, first_segment, 128, &offset, &place), VZ_ALREADY_KEPT);
  answer("book again, place", place, 256);
  answer("book another", vz_book(deal, 512, table, 4, 2, second_segment, 128, &offset, &place), VZ_OK);
  answer("book another, offset", offset, 128);
  answer("book another, place", place, 320);
  answer("book another, owner", table[1], 2);
  answer("book a third", vz_book(deal, 512, table, 4, 1, third_segment, 128, &offset, &place), VZ_NO_PLACE);
  answer("book a third, place left as it was", place, 320);
  answer("book a third, owners left as they were", table[0] + 16 * table[1] + table[2] + table[3], 33);
}

/* Document 01's run done by one house: it holds half of the slots after two segments. Then houses and tables that are
 * none. */
static void houses(void) {
  static uint8_t one[512], owners[VZ_MAX_TABLE];
  answer("one house, first", vz_book(one, 512, owners, 4, 2, first_segment, 128, &offset, &place), VZ_OK);
  answer("one house, second", vz_book(one, 512, owners, 4, 2, second_segment, 128, &offset, &place), VZ_OK);
  answer("one house, third", vz_book(one, 512, owners, 4, 2, third_segment, 128, &offset, &place), VZ_QUOTA);
  answer("one house, second again", vz_book(one, 512, owners, 4, 2, second_segment, 128, &offset, &place),
         VZ_ALREADY_KEPT);
  answer("the other house", vz_book(one, 512, owners, 4, 1, second_segment, 128, &offset, &place), VZ_NO_PLACE);
  answer("house 0", vz_book(one, 511, owners, 3, 0, first_segment, 0, &offset, &place), VZ_HOUSE);
  answer("house 255", vz_cancel(one, 511, owners, 3, 255, 300), VZ_HOUSE);
  answer("a table of 3 bytes, 511 bytes", vz_book(one, 511, owners, 3, 1, first_segment, 0, &offset, &place), VZ_SIZE);
  answer("a table of 3 bytes", vz_book(one, 512, owners, 3, 1, first_segment, 0, &offset, &place), VZ_HOUSE);
  answer("a table of 128 bytes", vz_cancel(one, 512, owners, VZ_MAX_TABLE, 1, 300), VZ_HOUSE);
  answer("cancel the other's", vz_cancel(one, 512, owners, 4, 1, 256), VZ_NOT_KEPT);
  owners[0] = 7;
  answer("cancel nobody's", vz_cancel(one, 512, owners, 4, 2, 256), VZ_NOT_KEPT);
  answer("owners", owners[0] == 7 && owners[1] == 2 && owners[2] == 0 && owners[3] == 0 && owners[4] == 0, 1);
}

static void looking(void) {
  uint8_t states[6] = {7, 7, 7, 7, 7, 7};
  answer("audit into 3 bytes", vz_audit(deal, 512, states, 3), VZ_OUTPUT);
  answer("audit of 511 bytes", vz_audit(deal, 511, states, 3), VZ_SIZE);
  answer("audit, states left as they were", states[0] + states[1] + states[2] + states[3], 28);
  answer("audit", vz_audit(deal, 512, states, 5), VZ_OK);
  answer("audit, kept", states[0] == VZ_SLOT_KEPT && states[1] == VZ_SLOT_KEPT, 1);
  answer("audit, blank", states[2] == VZ_SLOT_BLANK && states[3] == VZ_SLOT_BLANK, 1);
  answer("audit, the rest", states[4] + states[5], 14);
  answer("tally", vz_tally(deal, 512, &blank, &damaged, &valid), VZ_OK);
  answer("tally, blank", blank, 2);
  answer("tally, damaged", damaged, 0);
  answer("tally, valid", valid, 2);
  answer("tally of 511 bytes", vz_tally(deal, 511, &blank, &damaged, &valid), VZ_SIZE);
  answer("find", vz_find(deal, 512, commitment, 32, &offset, &size, &place), VZ_OK);
  answer("find, place", place, 256);
}

static void records(void) {
  static const uint8_t last_field[11] = {7, 8, 0, 8, 7, 6, 5, 4, 3, 2, 1};
  answer("build", vz_build(deal, 512, number, 256, record, sizeof record, &length), VZ_OK);
  answer("build, length", length, 245);
  answer("build, the deal's number", memcmp(record + 234, last_field, 11) == 0, 1);
  answer("build in 244 bytes", vz_build(deal, 512, number, 256, record, 244, &length), VZ_OUTPUT);
  answer("commitment of the deal", vz_commitment(deal, 512, deal_commitment, 32), VZ_OK);
  answer("check", vz_check(deal_commitment, 32, 512, number, record, length), VZ_OK);
  answer("check for another deal", vz_check(deal_commitment, 32, 512, number + 1, record, length), VZ_DEAL_NUMBER);
  answer("check without the number", vz_check(deal_commitment, 32, 512, number, record, 234), VZ_FORM);
  answer("read field", vz_read_field(record, length, 0, &tag, &start, &size, &next), VZ_OK);
  answer("read field, tag", tag, 1);
  answer("read field, length", size, 32);
  answer("read field, next", next, 35);
  answer("read field past the end", vz_read_field(record, length, length, &tag, &start, &size, &next), VZ_FORM);
}

static void settling(void) {
  static const uint8_t zeros[64];
  memset(left, 7, 64);
  memset(right, 7, 64);
  answer("settle records",
         vz_settle_records(deal_commitment, 32, 512, number, record, length, record, length, left, 64, right, 64),
         VZ_OK);
  answer("settle records, strings", memcmp(left, zeros, 64) == 0 && memcmp(right, zeros, 64) == 0, 1);
  answer("settle records for another deal",
         vz_settle_records(deal_commitment, 32, 512, ~number, record, length, record, 0, left, 64, right, 64),
         VZ_DEAL_NUMBER);
  answer("settle with the deal", vz_settle_with_deal(deal, 512, number, record, length, left, 64, right, 64), VZ_OK);
  answer("settle with another deal's number",
         vz_settle_with_deal(deal, 512, 0, record, length, left, 64, right, 64), VZ_DEAL_NUMBER);
  record[40] ^= 1;
  answer("check of another record", vz_check(deal_commitment, 32, 512, number, record, length), VZ_OFFSET);
  answer("settle with another record",
         vz_settle_with_deal(deal, 512, number, record, length, left, 64, right, 64), VZ_OFFSET);
}

/* The same two bookings with a tree beside the deal: deal, commitment and first record are those from above. */
static void with_tree(void) {
  static uint8_t booked[512], owners[4], tree[480], before[481], built[245];
  memset(tree, 7, sizeof tree);
  answer("tree fill", vz_tree_fill(booked, 512, tree, 480), VZ_OK);
  answer("tree fill, 479 bytes", vz_tree_fill(booked, 512, tree, 479), VZ_OUTPUT);
  answer("book with tree",
         vz_book_with_tree(booked, 512, tree, 480, owners, 4, 1, first_segment, 128, &offset, &place), VZ_OK);
  answer("book with tree, offset", offset, 0);
  answer("book with tree, place", place, 256);
  answer("book with tree, another",
         vz_book_with_tree(booked, 512, tree, 480, owners, 4, 2, second_segment, 128, &offset, &place), VZ_OK);
  answer("book with tree, deal", memcmp(booked, deal, 512) == 0, 1);
  answer("book with tree, table", memcmp(owners, table, 4) == 0, 1);
  answer("book with tree, last node", memcmp(tree + 448, deal_commitment, 32) == 0, 1);
  memcpy(before, tree, 480);
  answer("tree fill again", vz_tree_fill(booked, 512, tree, 480), VZ_OK);
  answer("tree fill again, tree", memcmp(tree, before, 480) == 0, 1);
  answer("book with tree, again",
         vz_book_with_tree(booked, 512, tree, 480, owners, 4, 1, first_segment, 128, &offset, &place),
         VZ_ALREADY_KEPT);
  answer("build with tree", vz_build_with_tree(booked, 512, tree, 480, number, 256, built, 245, &length), VZ_OK);
  answer("build with tree, record", memcmp(built, record, 245) == 0, 1);
  answer("build with a tree of 481",
         vz_build_with_tree(booked, 512, before, 481, number, 300, built, 0, &length), VZ_OUTPUT);
  answer("settle with tree",
         vz_settle_with_tree(booked, 512, tree, 480, number, built, 245, left, 64, right, 64), VZ_OK);
  answer("settle with tree and another deal's number",
         vz_settle_with_tree(booked, 512, tree, 480, 256, built, 245, left, 64, right, 64), VZ_DEAL_NUMBER);
  memset(before, 7, sizeof before);
  answer("tree row", vz_tree_row(booked, 512, before, 256), VZ_OK);
  answer("tree row, the next", vz_tree_row(before, 256, before + 256, 128), VZ_OK);
  answer("tree row, a part of a row", vz_tree_row(before + 256 + 64, 64, before + 384 + 32, 32), VZ_OK);
  answer("tree row, nodes", memcmp(before, tree, 384) == 0 && memcmp(before + 416, tree + 416, 32) == 0, 1);
  answer("tree row, nothing else", before[384] == 7 && before[415] == 7 && before[448] == 7, 1);
  answer("tree row, 31 bytes", vz_tree_row(booked, 64, before, 31), VZ_OUTPUT);
  answer("tree row of one node", vz_tree_row(booked, 32, before, 16), VZ_OUTPUT);
  tree[448] ^= 1;
  answer("settle with another last node",
         vz_settle_with_tree(booked, 512, tree, 480, number, built, 245, left, 64, right, 64), VZ_SEGMENT_PATH);
}

/* The first segment is cancelled and the deal collected: the second one moves to 0, and its entry to the first slot. */
static void changing(void) {
  static uint8_t second[512], moved[64], owners[4];
  memset(second, 7, 512);
  memset(owners, 7, 4);
  answer("cancel", vz_cancel(deal, 512, table, 4, 1, 256), VZ_OK);
  answer("cancel, owner", table[0], 0);
  answer("cancel again", vz_cancel(deal, 512, table, 4, 1, 256), VZ_NOT_KEPT);
  answer("cancel no place", vz_cancel(deal, 512, table, 4, 1, 300), VZ_PLACE);
  answer("cancel, the segment's bytes stay", memcmp(deal, first_segment, 128) == 0, 1);
  answer("collect into 511 bytes", vz_collect(deal, 512, table, 4, second, 511, owners, 4), VZ_OUTPUT);
  answer("collect with a table of 5", vz_collect(deal, 512, table, 4, second, 511, moved, 5), VZ_HOUSE);
  answer("collect, the second deal stays with 12", second[0] + second[511], 14);
  answer("collect, the second table stays with 12", owners[0] + owners[3], 14);
  answer("collect", vz_collect(deal, 512, table, 4, second, 512, owners, 4), VZ_OK);
  answer("collect, owners", owners[0] + 16 * owners[1] + owners[2] + owners[3], 2);
  answer("collect, bytes", memcmp(second, second_segment, 128) == 0, 1);
  answer("collect, zeros after them", second[128] + second[255], 0);
  answer("collect, commitment of the second segment", vz_commitment(second_segment, 128, commitment, 32), VZ_OK);
  answer("collect, entry", vz_make_entry(commitment, 32, 0, 128, moved, 64), VZ_OK);
  answer("collect, first slot", memcmp(second + 256, moved, 64) == 0, 1);
  answer("collect, next slot", second[320] + second[383], 0);
  memcpy(second + 448, moved, 64);
  answer("collect two that overlap", vz_collect(second, 512, owners, 4, deal, 512, table, 4), VZ_OVERLAP);
  answer("collect two that overlap, the second deal stays", memcmp(deal, first_segment, 128) == 0, 1);
}

/* The same with trees: each is that of its deal afterwards. */
static void changing_with_tree(void) {
  static uint8_t booked[512], owners[4], tree[480], second[512], second_owners[4], second_tree[480], filled[480];
  answer("tree fill", vz_tree_fill(booked, 512, tree, 480), VZ_OK);
  vz_book_with_tree(booked, 512, tree, 480, owners, 4, 1, first_segment, 128, &offset, &place);
  vz_book_with_tree(booked, 512, tree, 480, owners, 4, 2, second_segment, 128, &offset, &place);
  answer("cancel with a tree of 479", vz_cancel_with_tree(booked, 512, tree, 479, owners, 4, 1, 300), VZ_OUTPUT);
  answer("cancel with tree", vz_cancel_with_tree(booked, 512, tree, 480, owners, 4, 1, 256), VZ_OK);
  answer("cancel with tree, deal", memcmp(booked, deal, 512) == 0, 1);
  answer("cancel with tree, table", memcmp(owners, table, 4) == 0, 1);
  answer("tree fill", vz_tree_fill(booked, 512, filled, 480), VZ_OK);
  answer("cancel with tree, tree", memcmp(tree, filled, 480) == 0, 1);
  answer("collect with a tree of 512",
         vz_collect_with_tree(booked, 512, owners, 4, second, 512, deal, 512, second_owners, 4), VZ_OUTPUT);
  answer("collect with tree",
         vz_collect_with_tree(booked, 512, owners, 4, second, 512, second_tree, 480, second_owners, 4), VZ_OK);
  answer("collect with tree, owner", second_owners[0], 2);
  answer("collect with tree, bytes", memcmp(second, second_segment, 128) == 0, 1);
  answer("tree fill", vz_tree_fill(second, 512, filled, 480), VZ_OK);
  answer("collect with tree, tree", memcmp(second_tree, filled, 480) == 0, 1);
}

/* The lines of a log, one behind the other. */
static uint8_t lines[4 * VZ_BOOKING_LINE];
static size_t lines_length;

static void put_number(uint64_t value) {
  for (int i = 0; i < 8; i++) lines[lines_length++] = (uint8_t)(value >> 8 * i);
}

static void put_booking(uint8_t house, const uint8_t *segment, uint8_t code, uint64_t at, uint64_t entry_place) {
  const uint8_t head[4] = {1, VZ_BOOKING_LINE - 3, 0, house};
  memcpy(lines + lines_length, head, 4);
  vz_commitment(segment, 128, lines + lines_length + 4, 32);
  lines_length += 36;
  put_number(128);
  lines[lines_length++] = code;
  put_number(at);
  put_number(entry_place);
}

static void put_cancelling(uint8_t house, uint64_t entry_place, uint8_t code) {
  const uint8_t head[4] = {2, VZ_CANCELLING_LINE - 3, 0, house};
  memcpy(lines + lines_length, head, 4);
  lines_length += 4;
  put_number(entry_place);
  lines[lines_length++] = code;
}

/* The two bookings, the first one again, and its cancellation: one row is left. */
static void playing_back(void) {
  static uint8_t rows[VZ_ROWS + 1], row[VZ_ROW] = {2};
  uint64_t line = 7, count = 7;
  uint32_t code = 7;
  offset = place = 7;
  memset(rows, 7, sizeof rows);
  put_booking(1, first_segment, VZ_OK, 0, 256);
  put_booking(1, first_segment, VZ_ALREADY_KEPT, 0, 256);
  put_booking(2, second_segment, VZ_OK, 128, 320);
  put_cancelling(1, 256, VZ_OK);
  answer("log, length", lines_length, 3 * VZ_BOOKING_LINE + VZ_CANCELLING_LINE);
#define PLAY(size, length, room) vz_playback(size, lines, length, &line, &code, &offset, &place, &count, rows, room)
  answer("playback into 7295 bytes", PLAY(511, 1, VZ_ROWS - 1), VZ_OUTPUT);
  answer("playback into 7297 bytes", PLAY(511, 1, VZ_ROWS + 1), VZ_OUTPUT);
  answer("playback of a part of a line, 511 bytes", PLAY(511, 1, VZ_ROWS), VZ_SIZE);
  answer("playback of a part of a line", PLAY(512, 1, VZ_ROWS), VZ_FORM);
  answer("playback, numbers left as they were", line + code + offset + place + count, 35);
  answer("playback, rows left as they were", rows[0] + rows[VZ_ROWS - 1], 14);
  answer("playback", PLAY(512, lines_length, VZ_ROWS), VZ_OK);
  answer("playback, count", count, 1);
  memcpy(row + 1, lines + 2 * VZ_BOOKING_LINE + 4, 40); /* commitment and size, as in the line */
  row[41] = 128;
  row[49] = 320 % 256;
  row[50] = 320 / 256;
  answer("playback, row", memcmp(rows, row, VZ_ROW) == 0, 1);
  answer("playback, zeros after it", rows[VZ_ROW] + rows[VZ_ROWS - 1], 0);
  answer("playback, nothing past the rows", rows[VZ_ROWS], 7);
  answer("playback, a line's numbers left as they were", line + code + offset + place, 28);
  lines[VZ_BOOKING_LINE + 3] = 2; /* the second line's house: it has no such row */
  answer("playback of a wrong line", PLAY(512, lines_length, VZ_ROWS), VZ_WRONG_LINE);
  answer("playback of a wrong line, its number", line, 2);
  answer("playback of a wrong line, code", code, VZ_OK);
  answer("playback of a wrong line, offset", offset, 128);
  answer("playback of a wrong line, place", place, 320);
  answer("playback of a wrong line, count and rows left as they were", count == 1 && memcmp(rows, row, VZ_ROW) == 0, 1);
}

int main(void) {
  memset(first_segment, 1, 128);
  memset(second_segment, 2, 128);
  memset(third_segment, 3, 128);
  hashing();
  streaming();
  padding();
  index_entries();
  booking();
  houses();
  looking();
  records();
  with_tree();
  settling();
  changing();
  changing_with_tree();
  playing_back();
  return failures != 0;
}
