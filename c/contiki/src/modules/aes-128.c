/* aes-128.h over libcrypto. */
#include "lib/aes-128.h"

#include <string.h>

#include <openssl/evp.h>

static EVP_CIPHER_CTX *context;

static bool
set_key(const uint8_t *key)
{
  if(context == NULL) {
    context = EVP_CIPHER_CTX_new();
  }
  return context != NULL && EVP_EncryptInit_ex(context, EVP_aes_128_ecb(), NULL, key, NULL) == 1 &&
         EVP_CIPHER_CTX_set_padding(context, 0) == 1;
}

/* Before any key is set, the key is 0. */
static bool
encrypt(uint8_t *plaintext_and_result)
{
  static const uint8_t no_key[AES_128_KEY_LENGTH];
  int length;
  return (context != NULL || set_key(no_key)) &&
         EVP_EncryptUpdate(context, plaintext_and_result, &length, plaintext_and_result, AES_128_BLOCK_SIZE) == 1;
}

const struct aes_128_driver aes_128_driver = {set_key, encrypt};

void
aes_128_set_padded_key(uint8_t *key, uint8_t key_len)
{
  uint8_t block[AES_128_BLOCK_SIZE] = {0};
  memcpy(block, key, key_len < sizeof block ? key_len : sizeof block);
  aes_128_driver.set_key(block);
}
