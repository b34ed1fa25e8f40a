/*
 * CCM* beside OpenSSL's AES-128-CCM: messages and further data of each length at a boundary (no block, a block and one byte around it, a
 * number of blocks or bytes above 255, the longest), with a code of each length. Without a code CCM* only encrypts: beside AES-128-CTR.
 */
#include "lib/ccm-star.h"

#include "../c/check.h"

#include <stdlib.h>
#include <string.h>

#include <openssl/evp.h>

enum { LONGEST = 65535, NONCE = CCM_STAR_NONCE_LENGTH, MOST_CODE = 16 };

static const uint8_t key[16] = "a key of 16 byte", nonce[NONCE] = "a nonce of 13";

/* The longest length of further data whose number RFC 3610 writes in two bytes is 65,279. */
static const int further[] = {0, 1, 13, 14, 15, 16, 30, 255, 256, 257, 65279};
static const int messages[] = {0, 1, 15, 16, 17, 31, 32, 33, 255, 256, 257, 4079, 4080, 4081, 4096, 4097, 65520, 65534, 65535};

static uint8_t plain[LONGEST], data[LONGEST];

/* One call of OpenSSL failed: nothing can be compared then. */
static void
need(int status)
{
  if(status != 1) {
    printf("libcrypto refuses a call\n");
    exit(1);
  }
}

/* What OpenSSL makes of the plain text: the text and its code. */
static void
encrypt_by_openssl(uint8_t *text, int length, int more, uint8_t *code, int code_length)
{
  EVP_CIPHER_CTX *context = EVP_CIPHER_CTX_new();
  int done;
  need(EVP_EncryptInit_ex(context, EVP_aes_128_ccm(), NULL, NULL, NULL));
  need(EVP_CIPHER_CTX_ctrl(context, EVP_CTRL_AEAD_SET_IVLEN, NONCE, NULL));
  need(EVP_CIPHER_CTX_ctrl(context, EVP_CTRL_AEAD_SET_TAG, code_length, NULL));
  need(EVP_EncryptInit_ex(context, NULL, NULL, key, nonce));
  need(EVP_EncryptUpdate(context, NULL, &done, NULL, length));
  if(more > 0) {
    need(EVP_EncryptUpdate(context, NULL, &done, data, more));
  }
  need(EVP_EncryptUpdate(context, text, &done, plain, length));
  need(EVP_EncryptFinal_ex(context, text + done, &done));
  need(EVP_CIPHER_CTX_ctrl(context, EVP_CTRL_AEAD_GET_TAG, code_length, code));
  EVP_CIPHER_CTX_free(context);
}

/* The same by AES-128-CTR, from block 1 on. */
static void
encrypt_without_code(uint8_t *text, int length)
{
  EVP_CIPHER_CTX *context = EVP_CIPHER_CTX_new();
  uint8_t block[16] = {1};
  int done;
  memcpy(block + 1, nonce, NONCE);
  block[15] = 1;
  need(EVP_EncryptInit_ex(context, EVP_aes_128_ctr(), NULL, key, block));
  need(EVP_EncryptUpdate(context, text, &done, plain, length));
  EVP_CIPHER_CTX_free(context);
}

/* Encrypts and decrypts a message in memory of its exact length. */
static bool
is_right(int length, int more, int code_length)
{
  static uint8_t wanted[LONGEST + 16];
  uint8_t code[MOST_CODE + 1], wanted_code[MOST_CODE + 1], *text = malloc((size_t)length + (length == 0));
  memset(code, 7, sizeof code);
  memset(wanted_code, 7, sizeof wanted_code);
  if(code_length == 0) {
    encrypt_without_code(wanted, length);
  } else {
    encrypt_by_openssl(wanted, length, more, wanted_code, code_length);
  }
  memcpy(text, plain, (size_t)length);
  CCM_STAR.aead(nonce, text, (uint16_t)length, data, (uint16_t)more, code, (uint8_t)code_length, 1);
  bool is_encrypted = memcmp(text, wanted, (size_t)length) == 0 && memcmp(code, wanted_code, sizeof code) == 0;
  memset(code, 7, sizeof code);
  CCM_STAR.aead(nonce, text, (uint16_t)length, data, (uint16_t)more, code, (uint8_t)code_length, 0);
  bool is_decrypted = memcmp(text, plain, (size_t)length) == 0 && memcmp(code, wanted_code, sizeof code) == 0;
  free(text);
  return is_encrypted && is_decrypted;
}

/* All messages with this further data: with the codes of 4 and 16 bytes, without one, and the short ones with codes of each length. */
static void
check_messages(int more)
{
  for(size_t i = 0; i < sizeof messages / sizeof *messages; i++) {
    char name[80];
    bool are_right = is_right(messages[i], more, 0) && is_right(messages[i], more, 4) && is_right(messages[i], more, 16);
    for(int code = 6; code < MOST_CODE && messages[i] <= 33 && more <= 16; code += 2) {
      are_right = are_right && is_right(messages[i], more, code);
    }
    snprintf(name, sizeof name, "a message of %d bytes with %d more", messages[i], more);
    check(name, are_right);
  }
}

/* A key that is padded with 0 to 16 bytes, or cut there. */
static void
check_padded_keys(void)
{
  static const uint8_t lengths[] = {0, 1, 15, 16, 17, 255};
  uint8_t given[255], whole[16], one[16], other[16];
  memset(given, 0x5a, sizeof given);
  for(size_t i = 0; i < sizeof lengths; i++) {
    memset(whole, 0, sizeof whole);
    memset(whole, 0x5a, lengths[i] < 16 ? lengths[i] : 16);
    memcpy(one, plain, 16);
    memcpy(other, plain, 16);
    aes_128_set_padded_key(given, lengths[i]);
    bool is_encrypted = AES_128.encrypt(one);
    AES_128.set_key(whole);
    check("a padded key", is_encrypted && AES_128.encrypt(other) && memcmp(one, other, 16) == 0);
  }
}

int
main(void)
{
  for(int i = 0; i < LONGEST; i++) {
    plain[i] = (uint8_t)next_random();
    data[i] = (uint8_t)next_random();
  }
  check_padded_keys();
  CCM_STAR.set_key(key);
  for(size_t i = 0; i < sizeof further / sizeof *further; i++) {
    check_messages(further[i]);
  }
  return conclude();
}
