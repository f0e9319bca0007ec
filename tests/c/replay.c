/*
 * Answers the cases of tests/operations.py by the functions of include/vizhuthamen.h, for comparison with the
 * independent model: with the library of x86-64, as a test of the header, and with those of other machines
 * (tests/targets.py).
 *
 * A case is a header of eight little-endian u64 (operation, lengths of a, b, c, d and e, x, y), then the bytes a, b, c,
 * d and e. Each gets one line of text: the code, the numbers in decimal, the bytes in hex. Outputs are lent full of a
 * pattern: with a code that writes none it must stay, and zeros are shown. Memory that is lent to be read must stay as
 * it was.
 */
#include <inttypes.h>
#include <stdarg.h>
#include <stdio.h>
#include <stdlib.h>
#include <string.h>

#include "vizhuthamen.h"

#define PATTERN 0xa5
#define NUMBER UINT64_C(0xa5a5a5a5a5a5a5a5)
#define WORD UINT32_C(0xa5a5a5a5)

typedef struct {
  uint8_t *bytes;
  size_t length;
} memory;

enum { A, B, C, D, E, ARGUMENTS };

typedef struct {
  uint64_t operation, x, y;
  memory lent[ARGUMENTS];
} call;

/* An argument as it is lent: a pointer and a length. */
#define LENT(i) k->lent[i].bytes, k->lent[i].length
/* Of a house eight bits count; what a register holds above them is not the library's to look at. */
#define HOUSE (uint8_t)(k->y | UINT64_C(0xa5a5a5a5a5a5a500))

/* The outputs of a call. */
static uint8_t node[32], entry[64], left[64], right[64], state[VZ_STREAM_STATE], rows[VZ_ROWS];
static uint64_t first, second, third, fourth;
static uint32_t word;
static int written; /* whether the code writes them */

static void die(const char *why, ...) {
  va_list words;
  va_start(words, why);
  fputs("replay: ", stderr);
  vfprintf(stderr, why, words);
  fputs("\n", stderr);
  exit(1);
}

static void outputs_full_of_the_pattern(void) {
  memset(node, PATTERN, sizeof node);
  memset(entry, PATTERN, sizeof entry);
  memset(left, PATTERN, sizeof left);
  memset(right, PATTERN, sizeof right);
  memset(rows, PATTERN, sizeof rows);
  first = second = third = fourth = NUMBER;
  word = WORD;
}

/* ---- a line: the code, and what is written with code 0, or with another one too */

static void code_or(uint32_t code, uint32_t other) {
  written = code == VZ_OK || code == other;
  printf("%" PRIu32, code);
}

static void code(uint32_t code) { code_or(code, VZ_OK); }

static void number(uint64_t value) {
  if (!written && value != NUMBER) die("a number was changed by a refusal");
  printf(" %" PRIu64, written ? value : 0);
}

static void small(uint32_t value) {
  if (!written && value != WORD) die("a number was changed by a refusal");
  printf(" %" PRIu32, written ? value : 0);
}

static void hex(const uint8_t *bytes, size_t length) {
  putchar(' ');
  for (size_t i = 0; i < length; i++) printf("%02x", bytes[i]);
}

static void output(const uint8_t *bytes, size_t length) {
  static const uint8_t zeros[64];
  for (size_t i = 0; i < length; i++)
    if (!written && bytes[i] != PATTERN) die("an output was changed by a refusal");
  hex(written ? bytes : zeros, length);
}

/* The SHA-256 of bytes; of more than the library takes, that of the SHA-256s of their parts. */
static void digest(const uint8_t *bytes, size_t length, uint8_t *out) {
  uint8_t parts[8][32];
  size_t count = 0;
  if (length <= VZ_MAX_DEAL) {
    if (vz_sha256(bytes, length, out, 32) != VZ_OK) die("no SHA-256 of %zu bytes", length);
    return;
  }
  for (size_t at = 0; at < length; at += VZ_MAX_DEAL) {
    size_t rest = length - at;
    if (count == 8) die("an argument of %zu bytes is too long", length);
    digest(bytes + at, rest < VZ_MAX_DEAL ? rest : VZ_MAX_DEAL, parts[count++]);
  }
  digest(parts[0], 32 * count, out);
}

static void shown(const uint8_t *bytes, size_t length) {
  uint8_t out[32];
  digest(bytes, length, out);
  hex(out, 32);
}

/* ---- the operations */

static void sha256(call *k) {
  code(vz_sha256(LENT(A), node, 32));
  output(node, 32);
}

static void commitment(call *k) {
  code(vz_commitment(LENT(A), node, 32));
  output(node, 32);
}

static void stream(call *k) {
  uint32_t codes[256 + 1];
  size_t at = 0, count = 0;
  if (k->lent[B].length > 256) die("%zu pieces are too many", k->lent[B].length);
  vz_stream_new(state, sizeof state);
  for (size_t i = 0; i <= k->lent[B].length; i++) {
    size_t rest = k->lent[A].length - at;
    size_t length = i < k->lent[B].length && k->lent[B].bytes[i] < rest ? k->lent[B].bytes[i] : rest;
    codes[count++] = vz_stream_take(state, sizeof state, k->lent[A].bytes + at, length);
    at += length;
  }
  code(vz_stream_end(state, sizeof state, node, 32, &first));
  output(node, 32);
  number(first);
  for (size_t i = 0; i < count; i++) printf(" %" PRIu32, codes[i]);
}

static void pad(call *k) {
  code(vz_fr32_pad(LENT(A), LENT(B), &first));
  number(first);
  shown(LENT(B));
}

static void unpad(call *k) {
  code(vz_fr32_unpad(k->x, LENT(A), LENT(B), &first));
  number(first);
  shown(LENT(B));
}

static void index_numbers(call *k) {
  code(vz_index_numbers(k->x, &first, &second));
  number(first);
  number(second);
}

static void make_entry(call *k) {
  code(vz_make_entry(LENT(A), k->x, k->y, entry, 64));
  output(entry, 64);
}

static void read_entry(call *k) {
  code(vz_read_entry(LENT(A), &word, node, 32, &first, &second));
  small(word);
  output(node, 32);
  number(first);
  number(second);
}

static void audit(call *k) {
  code(vz_audit(LENT(A), LENT(B)));
  shown(LENT(B));
}

static void tally(call *k) {
  code(vz_tally(LENT(A), &first, &second, &third));
  number(first);
  number(second);
  number(third);
}

/* The kind of the answer, 0 or 1, and the code or the number of the line; what the rules give for it; then the rows. */
static void playback(call *k) {
  static const uint8_t zeros[VZ_ROWS];
  uint32_t answer = vz_playback(k->x, LENT(A), &first, &word, &second, &third, &fourth, rows, sizeof rows);
  written = answer == VZ_WRONG_LINE;
  if (written)
    printf("1 %" PRIu64, first);
  else if (first != NUMBER)
    die("a line's number was changed by the answer %" PRIu32, answer);
  else
    printf("0 %" PRIu32, answer);
  small(word);
  number(second);
  number(third);
  written = answer == VZ_OK;
  number(fourth);
  for (size_t i = 0; i < sizeof rows; i++)
    if (!written && rows[i] != PATTERN) die("rows were changed by the answer %" PRIu32, answer);
  shown(written ? rows : zeros, sizeof rows);
}

static void find(call *k) {
  code(vz_find(LENT(A), LENT(B), &first, &second, &third));
  number(first);
  number(second);
  number(third);
  if (!written) first = second = 0;
  if (first > k->lent[A].length || second > k->lent[A].length - first) die("the segment is outside the deal");
  printf(" %" PRIu64, second);
  shown(k->lent[A].bytes + first, second);
}

static void booked(uint32_t answer) {
  code_or(answer, VZ_ALREADY_KEPT);
  number(first);
  number(second);
}

static void book(call *k) {
  booked(vz_book(LENT(A), LENT(D), HOUSE, LENT(B), &first, &second));
  shown(LENT(A));
  shown(LENT(D));
}

static void book_with_tree(call *k) {
  booked(vz_book_with_tree(LENT(A), LENT(C), LENT(D), HOUSE, LENT(B), &first, &second));
  shown(LENT(A));
  shown(LENT(C));
  shown(LENT(D));
}

static void cancel(call *k) {
  code(vz_cancel(LENT(A), LENT(D), HOUSE, k->x));
  shown(LENT(A));
  shown(LENT(D));
}

static void cancel_with_tree(call *k) {
  code(vz_cancel_with_tree(LENT(A), LENT(C), LENT(D), HOUSE, k->x));
  shown(LENT(A));
  shown(LENT(C));
  shown(LENT(D));
}

static void collect(call *k) {
  code(vz_collect(LENT(A), LENT(D), LENT(B), LENT(E)));
  shown(LENT(B));
  shown(LENT(E));
}

static void collect_with_tree(call *k) {
  code(vz_collect_with_tree(LENT(A), LENT(D), LENT(B), LENT(C), LENT(E)));
  shown(LENT(B));
  shown(LENT(C));
  shown(LENT(E));
}

static void tree_fill(call *k) {
  code(vz_tree_fill(LENT(A), LENT(C)));
  shown(LENT(C));
}

static void tree_row(call *k) {
  code(vz_tree_row(LENT(A), LENT(B)));
  shown(LENT(B));
}

static void build(call *k) {
  code(vz_build(LENT(A), k->y, k->x, LENT(B), &first));
  number(first);
  shown(LENT(B));
}

static void build_with_tree(call *k) {
  code(vz_build_with_tree(LENT(A), LENT(C), k->y, k->x, LENT(B), &first));
  number(first);
  shown(LENT(B));
}

static void check(call *k) { code(vz_check(LENT(B), k->x, k->y, LENT(A))); }

static void settled(uint32_t answer) {
  code_or(answer, VZ_COLLISION);
  output(left, 64);
  output(right, 64);
}

static void settle_records(call *k) {
  settled(vz_settle_records(LENT(C), k->x, k->y, LENT(A), LENT(B), left, 64, right, 64));
}

static void settle_with_deal(call *k) { settled(vz_settle_with_deal(LENT(A), k->y, LENT(B), left, 64, right, 64)); }

static void settle_with_tree(call *k) {
  settled(vz_settle_with_tree(LENT(A), LENT(C), k->y, LENT(B), left, 64, right, 64));
}

/* The fields in turn from place 0: tag, start, length, next; then the place that is no field. */
static void fields(call *k) {
  uint64_t place = 0;
  printf("0");
  for (;;) {
    outputs_full_of_the_pattern();
    written = vz_read_field(LENT(A), place, &word, &first, &second, &third) == VZ_OK;
    if (!written) break;
    small(word);
    number(first);
    number(second);
    number(third);
    if (third <= place) die("the field at place %" PRIu64 " has the next place %" PRIu64, place, third);
    place = third;
  }
  if (word != WORD || first != NUMBER || second != NUMBER || third != NUMBER) die("a number was changed by a refusal");
  printf(" %" PRIu64, place);
}

/* By the numbers of tests/operations.py: the operation, and the arguments that it writes. */
static const struct {
  void (*answer)(call *);
  const char *written;
} OPERATIONS[] = {
    [1] = {sha256, ""},
    [2] = {commitment, ""},
    [3] = {index_numbers, ""},
    [4] = {make_entry, ""},
    [5] = {read_entry, ""},
    [6] = {find, ""},
    [7] = {book, "ad"},
    [8] = {build, "b"},
    [9] = {check, ""},
    [10] = {settle_records, ""},
    [11] = {settle_with_deal, ""},
    [12] = {fields, ""},
    [14] = {audit, "b"},
    [16] = {stream, ""},
    [17] = {pad, "b"},
    [18] = {unpad, "b"},
    [19] = {tally, ""},
    [20] = {tree_fill, "c"},
    [21] = {book_with_tree, "acd"},
    [22] = {build_with_tree, "b"},
    [23] = {settle_with_tree, ""},
    [24] = {cancel, "ad"},
    [25] = {cancel_with_tree, "acd"},
    [26] = {collect, "be"},
    [27] = {collect_with_tree, "bce"},
    [28] = {tree_row, "b"},
    [29] = {playback, ""},
};

/* ---- the cases */

static void *allocated(size_t length) {
  void *bytes = malloc(length > 0 ? length : 1); /* no pointer that is lent is NULL */
  if (!bytes) die("no memory for %zu bytes", length);
  return bytes;
}

static uint64_t number_at(const uint8_t *bytes) {
  uint64_t value = 0;
  for (int i = 8; i-- > 0;) value = value << 8 | bytes[i];
  return value;
}

/* The next case; false at the end of the input. */
static int read_call(call *k) {
  uint8_t header[64];
  size_t got = fread(header, 1, sizeof header, stdin);
  if (got == 0) return 0;
  if (got < sizeof header) die("the input ends inside a case");
  k->operation = number_at(header);
  k->x = number_at(header + 48);
  k->y = number_at(header + 56);
  for (int i = 0; i < ARGUMENTS; i++) {
    memory *lent = &k->lent[i];
    lent->length = number_at(header + 8 + 8 * i);
    lent->bytes = allocated(lent->length);
    if (fread(lent->bytes, 1, lent->length, stdin) < lent->length) die("the input ends inside a case");
  }
  return 1;
}

static void answer(call *k) {
  uint8_t *before[ARGUMENTS];
  if (k->operation >= sizeof OPERATIONS / sizeof *OPERATIONS || !OPERATIONS[k->operation].answer)
    die("no operation has the number %" PRIu64, k->operation);
  for (int i = 0; i < ARGUMENTS; i++) {
    before[i] = allocated(k->lent[i].length);
    memcpy(before[i], k->lent[i].bytes, k->lent[i].length);
  }
  outputs_full_of_the_pattern();
  OPERATIONS[k->operation].answer(k);
  putchar('\n');
  for (int i = 0; i < ARGUMENTS; i++) {
    if (!strchr(OPERATIONS[k->operation].written, 'a' + i) && memcmp(before[i], k->lent[i].bytes, k->lent[i].length))
      die("an input was changed by operation %" PRIu64, k->operation);
    free(before[i]);
    free(k->lent[i].bytes);
  }
}

int main(void) {
  call k;
  while (read_call(&k)) answer(&k);
  return fflush(stdout) != 0;
}
