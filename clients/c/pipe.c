/* The program `mcal_live` on a pipe: $MCAL_LIVE, or the one on the path. */
#define _POSIX_C_SOURCE 200809L
#include <errno.h>
#include <signal.h>
#include <stdio.h>
#include <stdlib.h>
#include <string.h>
#include <sys/types.h>
#include <sys/wait.h>
#include <unistd.h>

#include "Mcal_Link.h"

/* Bytes from one place to another, in so much room. */
typedef struct { char *bytes; size_t from, to, room; } Buffer;

static pid_t child = -1;
static int to_program = -1, from_program = -1;
static Buffer said, heard;

/* Becomes the program, or tells what it has in its place. */
static void start_program(int to[2], int from[2]) {
  const char *named = getenv("MCAL_LIVE"), *program = named ? named : "mcal_live";
  dup2(to[0], 0);
  dup2(from[1], 1);
  close(to[1]);
  close(from[0]);
  execlp(program, "mcal_live", (char *)NULL);
  dprintf(1, "no program: %s doesn't start (%s): build it by `tools/program mcal_live`, and give the path that this prints in MCAL_LIVE\n",
    program, strerror(errno));
  _exit(127);
}

/* Has so much room behind what a buffer holds. */
static void make_room(Buffer *buffer, size_t count) {
  if (buffer->room - buffer->to >= count) return;
  buffer->room = 2 * buffer->room + count;
  buffer->bytes = realloc(buffer->bytes, buffer->room);
  if (!buffer->bytes) abort();
}

static void put_text(const char *text, size_t length) {
  if (!length) return;
  make_room(&said, length);
  memcpy(said.bytes + said.to, text, length);
  said.to += length;
}

void Mcal_LinkOn(const char *configuration) {
  int to[2], from[2];
  if (pipe(to) || pipe(from)) abort();
  child = fork();
  if (child == 0) start_program(to, from);
  close(to[0]);
  close(from[1]);
  to_program = to[1];
  from_program = from[0];
  said.from = said.to = heard.from = heard.to = 0;
  make_room(&heard, 4096);
  signal(SIGPIPE, SIG_IGN);
  put_text(configuration, strlen(configuration));
  Mcal_Say("\n---");
}

/* Writes what was said. A program that has ended takes nothing more. */
static void flush(void) {
  while (said.from < said.to) {
    ssize_t count = write(to_program, said.bytes + said.from, said.to - said.from);
    if (count < 0 && errno == EINTR) continue;
    if (count < 0) break;
    said.from += (size_t)count;
  }
  said.from = said.to = 0;
}

void Mcal_LinkOff(void) {
  if (to_program < 0) return;
  flush();
  close(to_program);
  to_program = -1;
  while (Mcal_Hear()) {}
  close(from_program);
  from_program = -1;
  waitpid(child, NULL, 0);
}
boolean Mcal_LinkIsOn(void) { return to_program >= 0; }

void Mcal_Say(const char *line) {
  put_text(line, strlen(line));
  put_text("\n", 1);
}

/* Reads on, behind what wasn't heard yet; FALSE where nothing comes more. */
static boolean read_on(void) {
  heard.to -= heard.from;
  if (heard.from) memmove(heard.bytes, heard.bytes + heard.from, heard.to);
  heard.from = 0;
  make_room(&heard, 4096);
  for (;;) {
    ssize_t count = read(from_program, heard.bytes + heard.to, heard.room - heard.to);
    if (count < 0 && errno == EINTR) continue;
    if (count > 0) heard.to += (size_t)count;
    return count > 0;
  }
}

char *Mcal_Hear(void) {
  if (to_program >= 0) flush();
  if (from_program < 0) return NULL;
  for (size_t seen = 0;;) {
    char *line = heard.bytes + heard.from, *end = seen < heard.to - heard.from ? memchr(line + seen, '\n', heard.to - heard.from - seen) : NULL;
    if (end) {
      *end = 0;
      heard.from += (size_t)(end - line) + 1;
      return line;
    }
    seen = heard.to - heard.from;
    if (!read_on()) return NULL;
  }
}
