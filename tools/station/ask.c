/* Answers the requests of tools/station/compare.py by the library, through include/cue.h. Standard input has requests one after the other,
 * each a line `CALL SOURCE MODE SIZE START ROOM PLACE FILL` of numbers, CALL one of 0 samples, 1 wav, 2 header, 3 window, and behind it SOURCE bytes
 * of text. The answer is a line `COUNT REFUSAL LINE` and the ROOM bytes of the buffer, which were all FILL before the call. The bytes around the
 * buffer are watched too. An empty text or buffer goes as NULL here, and as the address of a byte in ask.rs. */
#include <stdio.h>
#include <stdlib.h>
#include <string.h>

#include "cue.h"

enum { EDGE = 64, WATCHED = 0x5a };

typedef struct {
  size_t call, len, start, room, place;
  unsigned long mode, riff_size;
  unsigned fill;
} Request;

static void stop(const char *why) {
  fprintf(stderr, "ask.c: %s\n", why);
  exit(1);
}

static uint8_t *bytes(size_t n) {
  uint8_t *made = malloc(n);
  if (made == NULL) stop("no memory");
  return made;
}

/* The header file's own names stand for the two modes and the two sizes, so that they are held too. */
static uint32_t mode_of(unsigned long number) {
  if (number == 0) return CUE_PLAIN;
  return number == 1 ? CUE_STRICT : (uint32_t)number;
}

static uint32_t size_of(unsigned long number) {
  if (number == 0) return CUE_PUBLISHED_SIZE;
  return number == 1 ? CUE_OLD_SIZE : (uint32_t)number;
}

static size_t called(const Request *r, const uint8_t *text, uint8_t *buffer, uint32_t *refusal, size_t *line) {
  switch (r->call) {
    case 0: return cue_samples(text, r->len, mode_of(r->mode), refusal, line);
    case 1: return cue_wav(text, r->len, mode_of(r->mode), size_of(r->riff_size), buffer, r->room, refusal, line);
    case 2: return cue_header(text, r->len, mode_of(r->mode), size_of(r->riff_size), buffer, r->room, refusal, line);
    case 3: return cue_window(text, r->len, mode_of(r->mode), r->start, buffer, r->room, r->place, refusal, line);
  }
  stop("no such call");
  return 0;
}

static void answer(const Request *r, const uint8_t *text) {
  uint8_t *around = bytes(r->room + 2 * EDGE), *buffer = around + EDGE, edge[EDGE];
  uint32_t refusal = UINT32_MAX;
  size_t line = SIZE_MAX, count;
  memset(around, WATCHED, r->room + 2 * EDGE);
  memset(buffer, (int)r->fill, r->room);
  memset(edge, WATCHED, EDGE);
  count = called(r, text, r->room ? buffer : NULL, &refusal, &line);
  if (memcmp(around, edge, EDGE) || memcmp(buffer + r->room, edge, EDGE)) stop("a byte outside the buffer is changed");
  printf("%zu %lu %zu\n", count, (unsigned long)refusal, line);
  fwrite(buffer, 1, r->room, stdout);
  free(around);
}

int main(void) {
  Request r;
  while (scanf("%zu %zu %lu %lu %zu %zu %zu %u", &r.call, &r.len, &r.mode, &r.riff_size, &r.start, &r.room, &r.place, &r.fill) == 8) {
    uint8_t *text = r.len ? bytes(r.len) : NULL;
    getchar();
    if (r.len && fread(text, 1, r.len, stdin) != r.len) stop("a text ends too early");
    answer(&r, text);
    free(text);
  }
  if (!feof(stdin)) stop("a request is not eight numbers");
  if (fflush(stdout)) stop("the answers cannot be written");
  return 0;
}
