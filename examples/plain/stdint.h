#ifndef PLAIN_STDINT_H
#define PLAIN_STDINT_H
typedef unsigned char uint8_t;
typedef unsigned int uint32_t;
#endif
