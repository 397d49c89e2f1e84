/* For a cross-compiler without the target's C library headers: what the example and paneglove.h use of it, on x86-64 Linux. */
#ifndef PLAIN_STDDEF_H
#define PLAIN_STDDEF_H
typedef unsigned long size_t;
#define NULL ((void *)0)
#endif
