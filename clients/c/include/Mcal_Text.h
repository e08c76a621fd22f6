/* Mcal_Text.h: the words and numbers of which the lines of mcal.c and its answers are made, with one space between two. */
#ifndef MCAL_TEXT_H
#define MCAL_TEXT_H

#include <stdarg.h>
#include <stddef.h>
#include <string.h>

#include "Std_Types.h"

/* The next word of a row, which is cut off there; NULL where there is none. */
static inline char *next_word(char **rest) {
  char *word = *rest, *end;
  while (*word == ' ') word++;
  if (!*word) return NULL;
  end = strchr(word, ' ');
  *rest = end ? end + 1 : word + strlen(word);
  if (end) *end = 0;
  return word;
}

/* The number that a text begins with, 0 where it begins with none, and what stands behind it. */
static inline uint32 number_of(const char *text, const char **end) {
  uint32 value = 0;
  for (; *text >= '0' && *text <= '9'; text++) value = value * 10u + (uint32)(*text - '0');
  *end = text;
  return value;
}

static inline uint32 next_number(char **rest) {
  const char *word = next_word(rest), *end;
  return word ? number_of(word, &end) : 0;
}

/* Puts a number at the end of a line. */
static inline char *put_number(char *to, uint32 value) {
  char digits[10];
  size_t count = 0;
  do digits[count++] = (char)('0' + value % 10u); while (value /= 10u);
  while (count) *to++ = digits[--count];
  return to;
}

static inline char *put_word(char *to, const char *end, const char *word) {
  size_t length = strlen(word), room = (size_t)(end - to);
  if (length > room) length = room;
  memcpy(to, word, length);
  return to + length;
}

/* Puts a format, with an `unsigned` for %u and a word for %s, at the end of a line that has room up to a place. */
static inline char *put(char *to, const char *end, const char *format, va_list arguments) {
  for (; *format && end - to > 10; format++) {
    if (*format != '%') *to++ = *format;
    else if (*++format == 'u') to = put_number(to, va_arg(arguments, unsigned));
    else to = put_word(to, end - 1, va_arg(arguments, const char *));
  }
  *to = 0;
  return to;
}

#endif
