/* The driver's own random numbers beside those of this machine's C library. Its functions are renamed for this test. */
#include <stdio.h>
#include <stdlib.h>

int own_rand(void);
void own_srand(unsigned seed);

int
main(void)
{
  static const unsigned seeds[] = {0, 1, 2, 42, 123456789, 2147483646, 2147483647, 2147483648, 4294967295};
  unsigned tried = 0, same = 0;
  for(unsigned i = 0; i <= sizeof seeds / sizeof seeds[0]; i++) {
    if(i > 0) {
      srand(seeds[i - 1]);
      own_srand(seeds[i - 1]);
    }
    for(unsigned drawn = 0; drawn < 1000; drawn++) {
      tried++;
      same += rand() == own_rand();
    }
  }
  printf("%u of %u checks hold\n", same, tried);
  return same == tried ? 0 : 1;
}
