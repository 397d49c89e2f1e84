#ifndef PLAIN_STDLIB_H
#define PLAIN_STDLIB_H
int abs(int n);
#endif
