/* CCM* (RFC 3610 with a length of 2 bytes, and without a code where that has 0 bytes), over lib/aes-128.h. */
#ifndef CCM_STAR_H_
#define CCM_STAR_H_

#include "lib/aes-128.h"

#define CCM_STAR_NONCE_LENGTH 13

struct ccm_star_driver {
  /* Sets the key, as aes_128_driver does. */
  void (*set_key)(const uint8_t *key);
  /* Writes the code of m and a, of mic_len bytes (0, 4, 6, .., 16), to result. Forward, m is then encrypted in place; otherwise it is
   * decrypted first, and the caller must compare the code. */
  void (*aead)(const uint8_t *nonce, uint8_t *m, uint16_t m_len, const uint8_t *a, uint16_t a_len, uint8_t *result, uint8_t mic_len,
               int forward);
};

extern const struct ccm_star_driver ccm_star_driver;
#define CCM_STAR ccm_star_driver

#endif
