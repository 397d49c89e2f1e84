#ifndef PLAIN_INTTYPES_H
#define PLAIN_INTTYPES_H
#include <stdint.h>
#define PRIu32 "u"
#endif
