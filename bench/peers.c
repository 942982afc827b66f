/* How long OpenSSL and nettle take for the operations on DES of nt_bench, on the same input: lines
 * `LIBRARY OPERATION NANOSECONDS`, the best of several rounds within half a second. Both libraries' calls of DES itself
 * are used, without a context of a general cipher around them. */
#define OPENSSL_SUPPRESS_DEPRECATED
#include <nettle/des.h>
#include <nettle/md4.h>
#include <openssl/des.h>
#include <openssl/md4.h>
#include <stdint.h>
#include <stdio.h>
#include <string.h>
#include <time.h>

typedef uint8_t u8;

static const u8 RAMP[16] = {0, 1, 2, 3, 4, 5, 6, 7, 8, 9, 10, 11, 12, 13, 14, 15};
static const u8 HASH[21] = {0xa4, 0xf4, 0x9c, 0x40, 0x65, 0x10, 0xbd, 0xca, 0xb6, 0x82, 0x4e,
                            0xe7, 0xc3, 0x0f, 0xd8, 0x52, 0,    0,    0,    0,    0};
static const u8 CHALLENGE[8] = {0x01, 0x23, 0x45, 0x67, 0x89, 0xab, 0xcd, 0xef};
static const u8 RESPONSE[24] = {0x67, 0xc4, 0x30, 0x11, 0xf3, 0x02, 0x98, 0xa2, 0xad, 0x35, 0xec, 0xe6,
                                0x4f, 0x16, 0x33, 0x1c, 0x44, 0xbd, 0xbe, 0xd9, 0x27, 0x84, 0x1f, 0x94};

/* The turns of a round: few, so that some round is undisturbed on a machine that does other work too. */
#define TURNS 1000

/* Always 0, which the compiler can't know. */
static volatile u8 unknown;

static void spread(const u8 *seven, u8 *eight) {
  uint64_t n = 0;
  for (int i = 0; i < 7; i++)
    n = n << 8 | seven[i];
  for (int i = 0; i < 8; i++)
    eight[i] = (u8)((n >> (49 - 7 * i) & 0x7f) << 1);
}

/* ---- OpenSSL */

static void openssl_key(DES_key_schedule *schedule, const u8 *seven) {
  u8 eight[8];
  spread(seven, eight);
  DES_set_key_unchecked((const_DES_cblock *)eight, schedule);
}

static void openssl_block(DES_key_schedule *schedule, const u8 *block, u8 *out) {
  DES_ecb_encrypt((const_DES_cblock *)block, (DES_cblock *)out, schedule, DES_ENCRYPT);
}

static void openssl_des(const u8 *seven, const u8 *block, u8 *out) {
  DES_key_schedule schedule;
  openssl_key(&schedule, seven);
  openssl_block(&schedule, block, out);
}

static void openssl_md4(const u8 *hash, u8 *out) { MD4(hash, 16, out); }

/* ---- nettle */

static void nettle_key(struct des_ctx *schedule, const u8 *seven) {
  u8 eight[8];
  spread(seven, eight);
  des_set_key(schedule, eight);
}

static void nettle_block(struct des_ctx *schedule, const u8 *block, u8 *out) { des_encrypt(schedule, 8, out, block); }

static void nettle_des(const u8 *seven, const u8 *block, u8 *out) {
  struct des_ctx schedule;
  nettle_key(&schedule, seven);
  nettle_block(&schedule, block, out);
}

static void nettle_md4(const u8 *hash, u8 *out) {
  struct md4_ctx digest;
  md4_init(&digest);
  md4_update(&digest, 16, hash);
  md4_digest(&digest, 16, out);
}

/* ---- time */

static double seconds(void) {
  struct timespec t;
  clock_gettime(CLOCK_MONOTONIC, &t);
  return t.tv_sec + t.tv_nsec * 1e-9;
}

#define MEASURE(library, operation, ...)                                                                               \
  do {                                                                                                                 \
    double best = 1e9, start = seconds();                                                                              \
    while (seconds() - start < 0.5) {                                                                                  \
      double round = seconds();                                                                                        \
      for (long turn = 0; turn < TURNS; turn++) {                                                                      \
        __VA_ARGS__;                                                                                                   \
      }                                                                                                                \
      round = (seconds() - round) / TURNS;                                                                             \
      if (round < best)                                                                                                \
        best = round;                                                                                                  \
    }                                                                                                                  \
    printf("%s %s %.1f\n", library, operation, best * 1e9);                                                            \
    fflush(stdout);                                                                                                    \
  } while (0)

/* All operations of one library, by its schedule and its calls. */
#define LIBRARY(name, schedule, key, block, des, md4)                                                                  \
  do {                                                                                                                 \
    schedule first, second;                                                                                            \
    u8 chained[8], once[8], out[24], input[8], digest[16];                                                             \
    key(&first, RAMP);                                                                                                 \
    key(&second, RAMP + 7);                                                                                            \
    memcpy(chained, CHALLENGE, 8);                                                                                     \
    memcpy(input, RAMP, 8);                                                                                            \
    MEASURE(name, "des-block", block(&first, chained, chained));                                                       \
    MEASURE(name, "des-key-block", input[7] ^= unknown; des(RAMP, input, out); unknown = out[7] & 0);                  \
    MEASURE(name, "cred", input[7] ^= unknown; des(RAMP, input, once); des(RAMP + 7, once, out); unknown = out[7] & 0); \
    MEASURE(                                                                                                           \
        name, "verify-v1", input[7] ^= unknown; des(HASH, CHALLENGE, out); des(HASH + 7, CHALLENGE, out + 8);          \
        des(HASH + 14, CHALLENGE, out + 16); if (!memcmp(out, RESPONSE, 24)) md4(HASH, digest);                         \
        unknown = out[7] & digest[0] & 0);                                                                             \
    MEASURE(                                                                                                           \
        name, "judge-authenticator", input[7] ^= unknown; block(&first, input, once); block(&second, once, out);       \
        if (memcmp(out, RESPONSE, 8)) { block(&first, input, once); block(&second, once, out); } unknown = out[7] & 0);\
  } while (0)

int main(void) {
  LIBRARY("openssl", DES_key_schedule, openssl_key, openssl_block, openssl_des, openssl_md4);
  LIBRARY("nettle", struct des_ctx, nettle_key, nettle_block, nettle_des, nettle_md4);
  return 0;
}
