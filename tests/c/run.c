/* Reads a call script from standard input, makes each call through include/iarwennol.h and writes one answer line per call, as the
 * second program does (oracle/src/script.rs).
 *
 * Inputs and outputs end where a page begins that may not be touched: the library is compiled without the address sanitizer, which
 * would not see it read or write past the end of what malloc gave. Two faults can be built in, to see that they are noticed:
 *   -DWRONG_AT=N    the N-th answer with a number has a wrong one
 *   -DMORE_ROOM=1   each output is said to be one byte longer than it is
 */
#define _DEFAULT_SOURCE
#include "../../include/iarwennol.h"

#include <stdio.h>
#include <stdlib.h>
#include <string.h>
#include <sys/mman.h>
#include <unistd.h>

#include "fields.h"

#ifndef WRONG_AT
#define WRONG_AT 0
#endif
#ifndef MORE_ROOM
#define MORE_ROOM 0
#endif

enum { FILL = 0xaa, MOST_BYTES = 4096, MOST_SAVED_BYTES = 16384, PLACES = 64 };

static iarwennol_compressor compressor;
static iarwennol_decompressor decompressor;
static iarwennol_endpoint endpoint;

static void stop(const char *what) {
  perror(what);
  exit(2);
}

/* Bytes of which the last is the last that may be touched, and `FILL` before them. */
struct block {
  uint8_t *bytes;
  size_t length;
  uint8_t *whole;
};

static struct block input, output;

static void take(struct block *b, size_t length) {
  b->length = length;
  if (!b->whole) {
    size_t page = (size_t)sysconf(_SC_PAGESIZE);
    b->whole = mmap(NULL, MOST_SAVED_BYTES + 2 * page, PROT_READ | PROT_WRITE, MAP_PRIVATE | MAP_ANONYMOUS, -1, 0);
    if (b->whole == MAP_FAILED) stop("mmap");
    b->whole += page;
    if (mprotect(b->whole + MOST_SAVED_BYTES, page, PROT_NONE)) stop("mprotect");
  }
  b->bytes = b->whole + MOST_SAVED_BYTES - length;
  memset(b->bytes - 64, FILL, 64 + length);
}

static int is_fill(const uint8_t *bytes, size_t length) {
  while (length > 0)
    if (bytes[--length] != FILL) return 0;
  return 1;
}

/* Words: each is ended by one space, the last by the end of the line; none is left where `rest` is null. */
static char *word(char **rest) {
  char *w = *rest;
  if (w) {
    char *space = strchr(w, ' ');
    *rest = space ? space + 1 : NULL;
    if (space) *space = 0;
  }
  return w;
}

static int number(char **rest, uint32_t *value) {
  const char *w = word(rest);
  uint64_t v = 0;
  if (!w || !*w) return 0;
  for (; *w; w++) {
    if (*w < '0' || *w > '9') return 0;
    v = 10 * v + (uint64_t)(*w - '0');
    if (v > UINT32_MAX) return 0;
  }
  *value = (uint32_t)v;
  return 1;
}

static int digit(char c) {
  if (c >= '0' && c <= '9') return c - '0';
  return c >= 'a' && c <= 'f' ? c - 'a' + 10 : -1;
}

static int hex(char **rest, size_t most) {
  const char *w = word(rest);
  size_t length, i;
  if (!w || !*w) return 0;
  length = strcmp(w, "-") ? strlen(w) : 0;
  if (length % 2 || length > 2 * most) return 0;
  take(&input, length / 2);
  for (i = 0; i < length; i += 2) {
    if (digit(w[i]) < 0 || digit(w[i + 1]) < 0) return 0;
    input.bytes[i / 2] = (uint8_t)(16 * digit(w[i]) + digit(w[i + 1]));
  }
  return 1;
}

static int room(char **rest, size_t most) {
  uint32_t length;
  if (!number(rest, &length) || length > most || *rest) return 0;
  take(&output, length);
  return 1;
}

/* Answers. */
static iarwennol_answer checked(iarwennol_answer a) {
  static long answers;
  if (++answers == WRONG_AT) a.number ^= 1;
  return a;
}

static void put_number(iarwennol_answer a) { printf("%u", checked(a).number); }

static void put_length(iarwennol_answer a) {
  a = checked(a);
  printf("%u %zu", a.number, a.length);
}

static void put_bytes(size_t length) {
  static const char digits[] = "0123456789abcdef";
  size_t i;
  printf(" %zu ", length);
  if (length > output.length) {
    printf("longer than the output");
    return;
  }
  if (length == 0) putchar('-');
  for (i = 0; i < length; i++) {
    putchar(digits[output.bytes[i] >> 4]);
    putchar(digits[output.bytes[i] & 15]);
  }
  if (!is_fill(output.bytes + length, output.length - length)) printf(" touched");
  if (!is_fill(output.bytes - 64, 64)) printf(" touched before");
}

static void put_sent(iarwennol_answer a) {
  a = checked(a);
  printf("%u %u", a.number, a.type);
  put_bytes(a.length);
}

/* Where nothing is sent there is no link type: one that is not 0 is shown, so that it is noticed. */
static void put_given(iarwennol_answer a) {
  a = checked(a);
  printf("%u", a.number);
  if (a.type) printf(" type %u", a.type);
  put_bytes(a.length);
}

/* Fields. */
struct table {
  const struct field *fields;
  size_t count;
  uint32_t *words;
  uint16_t *shorts;
  uint8_t *bytes;
  unsigned n, k;
};

static const struct table sender = {compressor_fields,       sizeof compressor_fields / sizeof *compressor_fields,
                                    compressor.words,        compressor.shorts,
                                    compressor.bytes,        IARWENNOL_COMPRESSOR_N,
                                    IARWENNOL_COMPRESSOR_K};
static const struct table receiver = {decompressor_fields,       sizeof decompressor_fields / sizeof *decompressor_fields,
                                      decompressor.words,        decompressor.shorts,
                                      decompressor.bytes,        IARWENNOL_DECOMPRESSOR_N,
                                      IARWENNOL_DECOMPRESSOR_K};

static int write_field(const struct table *t, char **rest) {
  const char *name = word(rest);
  const struct field *f = t->fields, *end = t->fields + t->count;
  uint32_t place, value;
  if (!name || !number(rest, &place) || !number(rest, &value) || *rest || place >= PLACES) return 0;
  if (!strcmp(name, "n") || !strcmp(name, "k")) {
    if (place || value > 0xff) return 0;
    t->bytes[*name == 'n' ? t->n : t->k] = (uint8_t)value;
  } else {
    while (f < end && strcmp(f->name, name)) f++;
    if (f == end || value > f->most) return 0;
    if (f->width == 32) t->words[f->place + place] = value;
    if (f->width == 16) t->shorts[f->place + place] = (uint16_t)value;
    if (f->width == 8) t->bytes[f->place + place] = (uint8_t)value;
  }
  printf("ok");
  return 1;
}

static int show_context(const struct table *t, char **rest) {
  const struct field *f;
  uint32_t place;
  if (!number(rest, &place) || *rest || place >= PLACES) return 0;
  printf("%u %u", t->bytes[t->n], t->bytes[t->k]);
  for (f = t->fields; f < t->fields + t->count; f++)
    printf(" %u", f->width == 32   ? t->words[f->place + place]
                  : f->width == 16 ? t->shorts[f->place + place]
                                   : t->bytes[f->place + place]);
  return 1;
}

/* Makes the call of a line and writes its answer; 0 if the line is no call, and then nothing was changed or written. */
static int call(char *rest) {
  const char *name = word(&rest);
  uint32_t a, b;
  size_t i;
#define IS(x) (!strcmp(name, x))
#define OUT output.bytes, output.length + MORE_ROOM
  if (IS("os") || IS("or") || IS("bo")) {
    if (!number(&rest, &a) || !number(&rest, &b) || rest) return 0;
    put_number(IS("os")   ? iarwennol_start_compressor(&compressor, a, b)
               : IS("or") ? iarwennol_start_decompressor(&decompressor, a, b)
                          : iarwennol_start_endpoint(&endpoint, a, b));
  } else if (IS("s") || IS("bw")) {
    if (!hex(&rest, MOST_BYTES) || !room(&rest, MOST_BYTES)) return 0;
    put_sent(IS("s") ? iarwennol_compress(&compressor, input.bytes, input.length, OUT)
                     : iarwennol_from_wire(&endpoint, input.bytes, input.length, OUT));
  } else if (IS("q")) {
    if (!hex(&rest, MOST_BYTES) || rest) return 0;
    put_length(iarwennol_take_report(&compressor, input.bytes, input.length));
  } else if (IS("r") || IS("br")) {
    if (!number(&rest, &a) || !hex(&rest, MOST_BYTES) || !room(&rest, MOST_BYTES)) return 0;
    put_given(IS("r") ? iarwennol_decompress(&decompressor, a, input.bytes, input.length, OUT)
                      : iarwennol_from_radio(&endpoint, a, input.bytes, input.length, OUT));
  } else if (IS("p") || IS("bp")) {
    if (!room(&rest, MOST_BYTES)) return 0;
    put_given(IS("p") ? iarwennol_make_report(&decompressor, OUT) : iarwennol_make_endpoint_report(&endpoint, OUT));
  } else if (IS("v")) {
    if (!room(&rest, MOST_SAVED_BYTES)) return 0;
    put_given(iarwennol_save_table(&decompressor, OUT));
  } else if (IS("l")) {
    if (!hex(&rest, MOST_SAVED_BYTES) || rest) return 0;
    put_number(iarwennol_load_table(&decompressor, input.bytes, input.length));
  } else if (IS("ws") || IS("wr")) {
    return write_field(IS("ws") ? &sender : &receiver, &rest);
  } else if (IS("ds") || IS("dr")) {
    return show_context(IS("ds") ? &sender : &receiver, &rest);
  } else if (IS("bt")) {
    if (rest) return 0;
    for (i = 0; i < IARWENNOL_TOTALS; i++) printf(i ? " %u" : "%u", endpoint.totals[i]);
  } else if (IS("wt")) {
    if (!number(&rest, &a) || !number(&rest, &b) || rest || a >= IARWENNOL_TOTALS) return 0;
    endpoint.totals[a] = b;
    printf("ok");
  } else {
    return 0;
  }
  return 1;
}

int main(void) {
  char *line = NULL;
  size_t size = 0;
  ssize_t length;
  while ((length = getline(&line, &size, stdin)) > 0) {
    if (line[length - 1] == '\n') line[--length] = 0;
    /* a zero byte would end the line for this program alone */
    if (strlen(line) != (size_t)length || !call(line)) putchar('?');
    putchar('\n');
  }
  free(line);
  if (ferror(stdin) || fflush(stdout)) stop("script");
  return 0;
}
