/* Pseudo-random numbers, the same in each run. */
#ifndef RANDOM_H_
#define RANDOM_H_

#define RANDOM_RAND_MAX 65535U

void random_init(unsigned short seed);

/* From 0 to RANDOM_RAND_MAX. */
unsigned short random_rand(void);

#endif
