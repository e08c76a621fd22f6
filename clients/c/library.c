/* The library `mcal_c`, whose exports are these. Link libmcal_c.a, and a liblibc_c.a of the toolchain's for its memory. */
#include <stdlib.h>
#include <string.h>

#include "Mcal_Link.h"

typedef struct Opaque Opaque;
typedef struct { Opaque *at; } Handle;
_Bool mcal_c_open(Opaque **out);
uint32 mcal_c_power_on(Handle *bench, const uint8 *text, size_t length);
uint32 mcal_c_line(Handle *bench, const uint8 *line, size_t length);
size_t mcal_c_told(Handle *bench, size_t at, uint8 *out, size_t room);

static Handle bench;
static boolean is_on;
static char *told;
static size_t told_room, told_length, heard;

/* Takes what is told, behind what wasn't heard yet. */
static void take_told(void) {
  if (heard == told_length) told_length = heard = 0;
  size_t from = told_length;
  for (size_t copied = 1; copied; told_length += copied) {
    if (told_length + 4096 > told_room) {
      told_room = 2 * told_room + 8192;
      told = realloc(told, told_room);
      if (!told) abort();
    }
    copied = mcal_c_told(&bench, told_length - from, (uint8 *)told + told_length, told_room - told_length - 1);
  }
  told[told_length] = 0;
}

void Mcal_LinkOn(const char *configuration) {
  if (!bench.at && !mcal_c_open(&bench.at)) abort();
  is_on = mcal_c_power_on(&bench, (const uint8 *)configuration, strlen(configuration)) == 0;
  take_told();
}
void Mcal_LinkOff(void) { is_on = FALSE; }
boolean Mcal_LinkIsOn(void) { return is_on; }

void Mcal_Say(const char *line) {
  if (mcal_c_line(&bench, (const uint8 *)line, strlen(line))) abort();
  take_told();
}
char *Mcal_Hear(void) {
  if (heard >= told_length) return NULL;
  char *line = told + heard, *end = memchr(line, '\n', told_length - heard);
  if (!end) return NULL;
  *end = 0;
  heard = (size_t)(end - told) + 1;
  return line;
}
