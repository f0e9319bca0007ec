/* check COMMITMENT SIZE NUMBER RECORD-FILE: checks a record. gcc check.c $(pkg-config --cflags --libs vizhuthamen) */
#include <stdio.h>
#include <stdlib.h>
#include <string.h>
#include <vizhuthamen.h>

int main(int count, char **words) {
  static uint8_t commitment[32], record[1 << 18]; /* no record in form is longer */
  FILE *file = count == 5 && strlen(words[1]) == 64 ? fopen(words[4], "rb") : NULL;
  for (int i = 0; i < 32; i++) if (!file || sscanf(words[1] + 2 * i, "%2hhx", &commitment[i]) != 1) return 64;
  uint64_t size = strtoull(words[2], NULL, 10), number = strtoull(words[3], NULL, 10);
  uint32_t code = vz_check(commitment, 32, size, number, record, fread(record, 1, sizeof record, file));
  printf("code %u: %s\n", code, vz_meaning(code));
  return (int)code;
}
