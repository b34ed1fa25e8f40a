/* AES-128 and CCM*: the example of FIPS 197, and the first packet of RFC 3610. */
#include "contiki.h"
#include "lib/aes-128.h"
#include "lib/ccm-star.h"

#include <stdio.h>

PROCESS(cipher_process, "Cipher");
AUTOSTART_PROCESSES(&cipher_process);

static void
fill(uint8_t *bytes, size_t length, uint8_t first, uint8_t step)
{
  for(size_t i = 0; i < length; i++) {
    bytes[i] = (uint8_t)(first + i * step);
  }
}

static void
print_bytes(const char *name, const uint8_t *bytes, size_t length)
{
  printf("%s ", name);
  for(size_t i = 0; i < length; i++) {
    printf("%02x", bytes[i]);
  }
  printf("\n");
}

PROCESS_THREAD(cipher_process, ev, data)
{
  static uint8_t key[AES_128_KEY_LENGTH], block[AES_128_BLOCK_SIZE], header[8], message[23], mic[8], again[8];
  static const uint8_t nonce[CCM_STAR_NONCE_LENGTH] = {0, 0, 0, 3, 2, 1, 0, 0xa0, 0xa1, 0xa2, 0xa3, 0xa4, 0xa5};

  PROCESS_BEGIN();

  fill(key, sizeof(key), 0x00, 1);
  fill(block, sizeof(block), 0x00, 0x11);
  AES_128.set_key(key);
  AES_128.encrypt(block);
  print_bytes("aes", block, sizeof(block));

  fill(key, sizeof(key), 0xc0, 1);
  fill(header, sizeof(header), 0x00, 1);
  fill(message, sizeof(message), 0x08, 1);
  CCM_STAR.set_key(key);
  CCM_STAR.aead(nonce, message, sizeof(message), header, sizeof(header), mic, sizeof(mic), 1);
  print_bytes("ccm", message, sizeof(message));
  print_bytes("mic", mic, sizeof(mic));
  CCM_STAR.aead(nonce, message, sizeof(message), header, sizeof(header), again, sizeof(again), 0);
  print_bytes("back", message, sizeof(message));
  printf("%s\n", memcmp(mic, again, sizeof(mic)) == 0 ? "authentic" : "forged");

  PROCESS_END();
}
