/* What a board takes for each call. */
#ifndef MEASURE_H
#define MEASURE_H

/* Prints stack and instructions; 0 where no call takes too much stack. */
int measure(void);

#endif
