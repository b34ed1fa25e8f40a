/* Runs applications, which a file names, a line each, over the script on standard input by toarmuts_run: tests/contiki compares. */
#include "toarmuts.h"

#include <stdio.h>
#include <stdlib.h>
#include <string.h>

struct bytes {
  uint8_t *at;
  size_t length;
};

static struct bytes
read_all(FILE *file)
{
  struct bytes bytes = {NULL, 0};
  size_t room = 0, now;
  do {
    room += 1 << 16;
    bytes.at = realloc(bytes.at, room);
    now = fread(bytes.at + bytes.length, 1, room - bytes.length, file);
    bytes.length += now;
  } while(now > 0);
  return bytes;
}

/* reference APPLICATIONS MMEM HEAP HEADER HAS_QUOTA QUOTA QUIET */
int
main(int count, char **word)
{
  struct toarmuts_configuration configuration;
  struct toarmuts_outcome answer = {.length = 1 << 20};
  FILE *file = count == 8 ? fopen(word[1], "r") : NULL;
  uint8_t *transcript = NULL;
  uint32_t sizes[6];
  struct bytes names, script;
  if(file == NULL) {
    return 64;
  }
  for(unsigned i = 0; i < 6; i++) {
    sizes[i] = (uint32_t)strtoul(word[2 + i], NULL, 10);
  }
  memcpy(&configuration, sizes, sizeof configuration);
  names = read_all(file);
  script = read_all(stdin);
  do {
    size_t room = answer.length;
    transcript = realloc(transcript, room);
    toarmuts_run(&configuration, names.at, names.length, script.at, script.length, transcript, room, &answer);
  } while(answer.status == TOARMUTS_NO_ROOM);
  fwrite(transcript, 1, answer.length, stdout);
  fclose(file);
  free(names.at);
  free(script.at);
  free(transcript);
  return answer.status == TOARMUTS_BAD_SIZES ? 64 : (int)answer.status;
}
