/*
 * SHA-256 by intel-ipsec-mb, which hashes many messages at once: jobs are submitted, and done when there are enough of
 * them, or when the rest is flushed. (Bursts of plain SHA-256 are not in version 1.3.)
 */
#include <intel-ipsec-mb.h>
#include <string.h>

/* Runs are hashed in parts of this size: the fastest of 8 KiB to 16 MiB. */
enum { PART = 1 << 18, NODE = 32, PAIR = 64 };

/* A manager for vectors of 128, 256 or 512 bits, with SHA instructions or not; NULL where the processor lacks the
 * vectors. */
IMB_MGR *ipsec_mb_new(int bits, int with_sha) {
  IMB_MGR *manager = alloc_mb_mgr(with_sha ? 0 : IMB_FLAG_SHANI_OFF);
  if (manager == NULL) return NULL;
  uint64_t vectors = bits == 128 ? IMB_FEATURE_SSE4_2 : bits == 256 ? IMB_FEATURE_AVX2 : IMB_FEATURE_AVX512_SKX;
  if ((manager->features & vectors) == 0) {
    free_mb_mgr(manager);
    return NULL;
  }
  (bits == 128 ? init_mb_mgr_sse : bits == 256 ? init_mb_mgr_avx2 : init_mb_mgr_avx512)(manager);
  if (imb_get_errno(manager) == 0) return manager;
  free_mb_mgr(manager);
  return NULL;
}

static void submit(IMB_MGR *manager, const uint8_t *message, size_t length, uint8_t *digest) {
  IMB_JOB *job = IMB_GET_NEXT_JOB(manager);
  job->src = message;
  job->hash_start_src_offset_in_bytes = 0;
  job->msg_len_to_hash_in_bytes = length;
  job->auth_tag_output = digest;
  job->auth_tag_output_len_in_bytes = NODE;
  job->hash_alg = IMB_AUTH_SHA_256;
  job->cipher_mode = IMB_CIPHER_NULL;
  job->cipher_direction = IMB_DIR_ENCRYPT;
  job->chain_order = IMB_ORDER_HASH_CIPHER;
  IMB_SUBMIT_JOB_NOCHECK(manager);
}

static void finish(IMB_MGR *manager) {
  while (IMB_FLUSH_JOB(manager) != NULL) {
  }
}

void ipsec_mb_sha256(IMB_MGR *manager, const uint8_t *message, size_t length, uint8_t *digest) {
  submit(manager, message, length, digest);
  finish(manager);
}

/* The node hashes of a number of pairs. */
static void level(IMB_MGR *manager, const uint8_t *pairs, size_t count, uint8_t *nodes) {
  for (size_t i = 0; i < count; i++) submit(manager, pairs + PAIR * i, PAIR, nodes + NODE * i);
  finish(manager);
  for (size_t i = 0; i < count; i++) nodes[NODE * i + NODE - 1] &= 0x3f;
}

/* The commitment of at most PART bytes, and at least 64, level by level between two buffers. */
static void part(IMB_MGR *manager, const uint8_t *run, size_t length, uint8_t *node) {
  static uint8_t buffers[2][PART / 2];
  int which = 0;
  for (const uint8_t *pairs = run; length >= PAIR; length /= 2, which = !which) {
    level(manager, pairs, length / PAIR, buffers[which]);
    pairs = buffers[which];
  }
  memcpy(node, buffers[!which], NODE);
}

/* The commitment of a run, a power of two from 64 to 2^24 bytes. */
void ipsec_mb_commitment(IMB_MGR *manager, const uint8_t *run, size_t length, uint8_t *node) {
  static uint8_t nodes[(1 << 24) / PART * NODE];
  if (length <= PART) {
    part(manager, run, length, node);
    return;
  }
  for (size_t i = 0; i < length / PART; i++) part(manager, run + PART * i, PART, nodes + NODE * i);
  part(manager, nodes, length / PART * NODE, node);
}
