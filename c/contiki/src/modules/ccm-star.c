/* ccm-star.h over aes-128.h: names are those of RFC 3610. */
#include "lib/ccm-star.h"

#include <string.h>

enum { FLAGS_OF_LENGTH = 1, FLAG_OF_ADATA = 1 << 6, BLOCK = AES_128_BLOCK_SIZE };

/* The blocks B_0 and A_i: flags, nonce, and a number of 2 bytes. */
static void
make_block(uint8_t *block, uint8_t flags, const uint8_t *nonce, uint16_t number)
{
  block[0] = flags;
  memcpy(block + 1, nonce, CCM_STAR_NONCE_LENGTH);
  block[14] = (uint8_t)(number >> 8);
  block[15] = (uint8_t)number;
}

/* Adds bytes to the block that is encrypted next, after those that it has. Returns the new number. */
static size_t
add_bytes(uint8_t *x, size_t taken, const uint8_t *bytes, size_t length)
{
  for(size_t i = 0; i < length; i++) {
    x[taken++] ^= bytes[i];
    if(taken == BLOCK) {
      AES_128.encrypt(x);
      taken = 0;
    }
  }
  return taken;
}

/* Fills the rest of a block with 0. */
static void
pad(uint8_t *x, size_t taken)
{
  if(taken > 0) {
    AES_128.encrypt(x);
  }
}

/* Encrypts or decrypts with the blocks S_i from a number on. */
static void
apply_counter(const uint8_t *nonce, uint16_t number, uint8_t *bytes, size_t length)
{
  uint8_t s[BLOCK];
  for(size_t i = 0; i < length; i++) {
    if(i % BLOCK == 0) {
      make_block(s, FLAGS_OF_LENGTH, nonce, number++);
      AES_128.encrypt(s);
    }
    bytes[i] ^= s[i % BLOCK];
  }
}

static void
make_mic(const uint8_t *nonce, const uint8_t *m, uint16_t m_len, const uint8_t *a, uint16_t a_len, uint8_t *result, uint8_t mic_len)
{
  uint8_t x[BLOCK], length[2] = {(uint8_t)(a_len >> 8), (uint8_t)a_len};
  uint8_t flags = (uint8_t)(FLAGS_OF_LENGTH | (a_len > 0 ? FLAG_OF_ADATA : 0) | (mic_len > 0 ? (mic_len - 2) / 2 << 3 : 0));
  make_block(x, flags, nonce, m_len);
  AES_128.encrypt(x);
  if(a_len > 0) {
    pad(x, add_bytes(x, add_bytes(x, 0, length, sizeof length), a, a_len));
  }
  pad(x, add_bytes(x, 0, m, m_len));
  apply_counter(nonce, 0, x, mic_len);
  memcpy(result, x, mic_len);
}

static void
set_key(const uint8_t *key)
{
  AES_128.set_key(key);
}

static void
aead(const uint8_t *nonce, uint8_t *m, uint16_t m_len, const uint8_t *a, uint16_t a_len, uint8_t *result, uint8_t mic_len, int forward)
{
  if(!forward) {
    apply_counter(nonce, 1, m, m_len);
  }
  if(mic_len > 0) {
    make_mic(nonce, m, m_len, a, a_len, result, mic_len < BLOCK ? mic_len : BLOCK);
  }
  if(forward) {
    apply_counter(nonce, 1, m, m_len);
  }
}

const struct ccm_star_driver ccm_star_driver = {set_key, aead};
