/* A library that is loaded before the C library, and has growths of memory, reads and writes fail.
 *
 * REFUSE, FAIL and CUT are numbers, from 1 on: the growth that is refused, the read or write that fails, and the one of several bytes that
 * moves a single one. COUNTS is a file for how many there were, and how many blocks of memory were not given back. */
typedef unsigned long size;
extern char *getenv(const char *);
extern long strtol(const char *, char **, int);
extern void *dlsym(void *, const char *);
extern int *__errno_location(void);
extern int dprintf(int, const char *, ...);
extern int open(const char *, int, ...);

static long growths, transfers, wide, live;

static int
is_chosen(const char *name, long number)
{
  const char *chosen = getenv(name);
  return chosen && strtol(chosen, 0, 10) == number;
}

static void *
next(const char *name)
{
  return dlsym((void *)-1, name);
}

static int
refused(void)
{
  if(!is_chosen("REFUSE", ++growths)) return 0;
  *__errno_location() = 12;
  return 1;
}

void *
malloc(size n)
{
  static void *(*real)(size);
  if(!real) real = next("malloc");
  void *block = refused() ? 0 : real(n);
  live += block != 0;
  return block;
}

void *
realloc(void *old, size n)
{
  static void *(*real)(void *, size);
  if(!real) real = next("realloc");
  void *block = refused() ? 0 : real(old, n);
  live += block != 0 && old == 0;
  return block;
}

void
free(void *block)
{
  static void (*real)(void *);
  if(!real) real = next("free");
  live -= block != 0;
  real(block);
}

static long
moved(const char *name, int file, const void *bytes, size n)
{
  long (*real)(int, const void *, size) = next(name);
  if(is_chosen("FAIL", ++transfers)) {
    *__errno_location() = 5;
    return -1;
  }
  return real(file, bytes, n > 1 && is_chosen("CUT", ++wide) ? 1 : n);
}

long
read(int file, void *bytes, size n)
{
  return moved("read", file, bytes, n);
}

long
write(int file, const void *bytes, size n)
{
  return moved("write", file, bytes, n);
}

__attribute__((destructor)) static void
tell(void)
{
  const char *counts = getenv("COUNTS");
  if(counts) dprintf(open(counts, 0101, 0600), "%ld %ld %ld %ld\n", growths, transfers, wide, live);
}
