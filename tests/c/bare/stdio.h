/* The little of <stdio.h> that the programs here use. */
#ifndef BARE_STDIO_H
#define BARE_STDIO_H
#include <stddef.h>
#define EOF (-1)
int printf(const char *format, ...);
int sprintf(char *to, const char *format, ...);
int getchar(void);
typedef struct file FILE;
int fflush(FILE *file);
#endif
