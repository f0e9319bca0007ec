/* What the library says of itself: the meanings of its codes, and its version. Not proved. */
#include "vizhuthamen.h"

const char *vz_meaning(uint32_t code) {
#define VZ_CASE(number, name, meaning) \
  case number:                         \
    return meaning;
  switch (code) { VZ_CODES(VZ_CASE) }
#undef VZ_CASE
  return "unknown code";
}

const char *vz_version(void) { return VZ_VERSION; }
