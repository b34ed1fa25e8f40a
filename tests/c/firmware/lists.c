/* The processes of tests/c/contiki/lists.c, whose lists are in the program itself: a test writes them there, in place of the mark. */
#include "contiki.h"

#include <stdlib.h>

enum { ROOM = 1 << 18 };

static const char marked[ROOM] = "@LISTS@";

/* The compiler doesn't know that these are the bytes above. */
static const char *volatile rest = marked;

static char *
next_line(char *line, size_t room)
{
  const char *text = rest;
  size_t length = strcspn(text, "\n");
  if(*text == '\0' || length + 1 > room) {
    return NULL;
  }
  memcpy(line, text, length);
  line[length] = '\0';
  rest = text + length + 1;
  return line;
}

#define getenv(name) ""
#define fopen(name, mode) stdout
#define fgets(line, room, file) next_line(line, room)
#define fclose(file) ((void)(file))
#include "../contiki/lists.c"
