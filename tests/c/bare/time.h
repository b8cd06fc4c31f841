/* The little of <time.h> that the programs here use. */
#ifndef BARE_TIME_H
#define BARE_TIME_H
typedef long time_t;
time_t time(time_t *to);
#endif
