/* Prints by three functions of C. */
#include <stdio.h>

void say(const char *text);

void
say(const char *text)
{
  fputs(text, stdout);
  putchar(',');
  fprintf(stdout, " %d bytes\n", 19);
}
