/* Std_Types.h: the standard's basic types. */
#ifndef STD_TYPES_H
#define STD_TYPES_H

#include <stdint.h>

typedef uint8_t boolean;
typedef uint8_t uint8;
typedef uint16_t uint16;
typedef uint32_t uint32;
typedef uint8 Std_ReturnType;

#ifndef TRUE
#define TRUE 1u
#define FALSE 0u
#endif

#define E_OK 0u
#define E_NOT_OK 1u
#define STD_LOW 0u
#define STD_HIGH 1u
#define NULL_PTR ((void *)0)

#endif
