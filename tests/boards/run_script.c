/* run_script NAMES FILE: runs applications, whose names colons part, over a script, and prints the transcript. */
#include "toarmuts.h"

#include <stdio.h>
#include <stdlib.h>
#include <string.h>

enum { ROOM = 65536 };
static uint8_t script[ROOM], transcript[ROOM];

int
main(int count, char **words)
{
  struct toarmuts_configuration configuration = TOARMUTS_DEFAULTS;
  struct toarmuts_outcome answer;
  FILE *file = count == 3 ? fopen(words[2], "rb") : NULL;
  if(file == NULL) {
    return 98;
  }
  size_t length = fread(script, 1, sizeof script, file);
  fclose(file);
  for(char *c = words[1]; *c != '\0'; c++) {
    *c = *c == ':' ? '\n' : *c;
  }
  toarmuts_run(&configuration, (const uint8_t *)words[1], strlen(words[1]), script, length, transcript, sizeof transcript, &answer);
  if(answer.status <= TOARMUTS_TOO_LONG) {
    fwrite(transcript, 1, (size_t)answer.length, stdout);
  }
  return (int)answer.status;
}
