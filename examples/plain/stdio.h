#ifndef PLAIN_STDIO_H
#define PLAIN_STDIO_H
#include <stddef.h>
int printf(const char *format, ...);
#endif
