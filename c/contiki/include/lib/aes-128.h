/* AES with keys of 128 bits, one block at a time (FIPS 197), by OpenSSL's libcrypto. */
#ifndef AES_128_H_
#define AES_128_H_

#include <stdbool.h>
#include <stdint.h>

#if !defined(__has_include) || !__has_include(<openssl/evp.h>)
#error "lib/aes-128.h and lib/ccm-star.h need OpenSSL's libcrypto, and its headers are missing: install libssl-dev"
#endif

#define AES_128_BLOCK_SIZE 16
#define AES_128_KEY_LENGTH 16

struct aes_128_driver {
  /* Sets the key, of 16 bytes, for later blocks. false if libcrypto fails. */
  bool (*set_key)(const uint8_t *key);
  /* Encrypts a block of 16 bytes in place. */
  bool (*encrypt)(uint8_t *plaintext_and_result);
};

extern const struct aes_128_driver aes_128_driver;
#define AES_128 aes_128_driver

/* Sets a key of at most 16 bytes, with 0 after them. */
void aes_128_set_padded_key(uint8_t *key, uint8_t key_len);

#endif
