// The loads of main.rt.txt with the C library's own memory. Its words are a load and a number of rounds.
#include <stdint.h>
#include <stdio.h>
#include <stdlib.h>
#include <string.h>

enum { BLOCKS = 256, LEAST = 16 };

enum load { ALLOC, RESIZE, WRITE, READ };

static unsigned char *block[BLOCKS];
static uint32_t length[BLOCKS];
static uint32_t refused;
static uint32_t seen;

// A new block is zeros.
static void
take(uint32_t k, uint32_t n)
{
  block[k] = calloc(1, n);
  length[k] = n;
  if(!block[k]) refused++;
}

// What a resize adds is zeros.
static void
resize(uint32_t k, uint32_t n)
{
  unsigned char *moved = realloc(block[k], n);
  if(!moved) {
    refused++;
    return;
  }
  if(n > length[k]) memset(moved + length[k], 0, n - length[k]);
  block[k] = moved;
  length[k] = n;
}

static void
write_to(uint32_t k)
{
  unsigned char chunk[LEAST];
  memset(chunk, (int)k, LEAST);
  if(length[k] < LEAST)
    refused++;
  else
    memcpy(block[k], chunk, LEAST);
}

static void
read_from(uint32_t k)
{
  unsigned char chunk[LEAST];
  if(length[k] < LEAST) {
    refused++;
    return;
  }
  memcpy(chunk, block[k], LEAST);
  seen += chunk[k % LEAST];
}

static enum load
load_of(const char *word)
{
  if(!strcmp(word, "alloc")) return ALLOC;
  if(!strcmp(word, "resize")) return RESIZE;
  return strcmp(word, "write") ? READ : WRITE;
}

static void
round_of(enum load load, uint32_t k, uint32_t n)
{
  switch(load) {
  case ALLOC:
    free(block[k]);
    take(k, n);
    break;
  case RESIZE:
    resize(k, n);
    break;
  case WRITE:
    write_to(k);
    break;
  case READ:
    read_from(k);
    break;
  }
}

int
main(int count, char **words)
{
  if(count != 3) return 1;
  enum load load = load_of(words[1]);
  uint32_t rounds = (uint32_t)strtoul(words[2], 0, 10);
  uint32_t seed = 1;
  for(uint32_t k = 0; k < BLOCKS; k++) take(k, LEAST);
  for(uint32_t i = 0; i < rounds; i++) {
    seed = seed * 1664525 + 1013904223;
    round_of(load, seed >> 24, LEAST + (seed >> 8) % 112);
  }
  printf("%u refused, %u seen\n", refused, seen);
  return 0;
}
