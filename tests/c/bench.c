/* Times send and receive from C on the packets of bench/README.md. Without an argument one round of each configuration: what was
 * put on the link, as bench/second says it; with `time` nine rounds, and the least picoseconds a packet too. */
#define _POSIX_C_SOURCE 200809L
#include "../../include/iarwennol.h"

#include <stdio.h>
#include <stdlib.h>
#include <string.h>
#include <time.h>

enum { PACKET = 200, PAYLOAD = 160, BATCH = 64, BATCHES = 500, PACKETS = BATCH * BATCHES, ROUNDS = 9, REPEATS = 2 };

struct counts {
  unsigned kinds[4], exact;
  size_t header;
  uint32_t sum;
};

static iarwennol_compressor sender;
static iarwennol_decompressor receiver;
static uint8_t packets[BATCH][PACKET], links[BATCH][PACKET], rebuilt[BATCH][PACKET];
static iarwennol_answer sent[BATCH], got[BATCH];

static void put(uint8_t *at, int bytes, uint32_t value) {
  while (bytes > 0) {
    at[--bytes] = (uint8_t)value;
    value >>= 8;
  }
}

static void make(uint32_t j, uint32_t n, uint8_t *p) {
  uint32_t sum = 0;
  int i;
  memset(p, 0, PACKET - PAYLOAD);
  p[0] = 0x45, p[1] = 0xb8, p[6] = 0x40, p[8] = 64, p[9] = 17;
  put(p + 2, 2, PACKET);
  put(p + 4, 2, 1000 * j + n);
  put(p + 12, 4, 0x0a000001 + j);
  put(p + 16, 4, 0x0a000101);
  for (i = 0; i < 20; i += 2) sum += 256u * p[i] + p[i + 1];
  sum = (sum & 0xffff) + (sum >> 16);
  put(p + 10, 2, ~(sum + (sum >> 16)));
  put(p + 20, 2, 4000 + 2 * j);
  put(p + 22, 2, 5004);
  put(p + 24, 2, PACKET - 20);
  p[28] = 0x80, p[29] = n == 0 ? 0x80 : 0;
  put(p + 30, 2, 100 * j + n);
  put(p + 32, 4, 16000 * j + 160 * n);
  put(p + 36, 4, 0x1000 + j);
  for (i = 0; i < PAYLOAD; i++) p[40 + i] = (uint8_t)(i + (int)j);
}

static uint64_t now(void) {
  struct timespec t;
  clock_gettime(CLOCK_MONOTONIC, &t);
  return 1000000000u * (uint64_t)t.tv_sec + (uint64_t)t.tv_nsec;
}

/* Times of a round are added up over its batches: one clock read for 64 calls. */
static struct counts round_of(uint32_t streams, uint32_t k, uint64_t *sending, uint64_t *receiving) {
  struct counts c = {{0, 0, 0, 0}, 0, 0, 0};
  uint32_t batch, i, at;
  *sending = *receiving = 0;
  if (iarwennol_start_compressor(&sender, REPEATS, k).number || iarwennol_start_decompressor(&receiver, REPEATS, k).number) {
    fprintf(stderr, "bench: an opening was refused\n");
    exit(1);
  }
  for (batch = 0; batch < BATCHES; batch++) {
    uint64_t a, b, d;
    for (i = 0; i < BATCH; i++) {
      at = batch * BATCH + i;
      make(at % streams, at / streams, packets[i]);
    }
    a = now();
    for (i = 0; i < BATCH; i++) sent[i] = iarwennol_compress(&sender, packets[i], PACKET, links[i], PACKET);
    b = now();
    for (i = 0; i < BATCH; i++)
      got[i] = iarwennol_decompress(&receiver, sent[i].type, links[i], sent[i].length, rebuilt[i], PACKET);
    d = now();
    *sending += b - a;
    *receiving += d - b;
    for (i = 0; i < BATCH; i++) {
      if (sent[i].number || sent[i].type > 3 || sent[i].length < PAYLOAD) {
        fprintf(stderr, "bench: a send was refused\n");
        exit(1);
      }
      c.kinds[sent[i].type]++;
      c.header += sent[i].length - PAYLOAD;
      for (at = 0; at < sent[i].length; at++) c.sum += links[i][at];
      c.exact += got[i].length == PACKET && !memcmp(rebuilt[i], packets[i], PACKET);
    }
  }
  return c;
}

int main(int argc, char **argv) {
  static const uint32_t configurations[3][2] = {{64, 64}, {1, 64}, {1, 1}};
  int timed = argc == 2 && !strcmp(argv[1], "time"), i, round;
  if (argc > 1 && !timed) {
    fprintf(stderr, "usage: bench [time]\n");
    return 2;
  }
  for (i = 0; i < 3; i++) {
    uint32_t streams = configurations[i][0], k = configurations[i][1];
    uint64_t sending, receiving, s, r;
    struct counts c = round_of(streams, k, &sending, &receiving);
    printf("streams=%u k=%u fh=%u cu=%u cr=%u header=%zu sum=%u exact=%u", streams, k, c.kinds[1], c.kinds[2], c.kinds[3],
           c.header, c.sum, c.exact);
    for (round = 1; timed && round < ROUNDS; round++) {
      round_of(streams, k, &s, &r);
      if (s < sending) sending = s;
      if (r < receiving) receiving = r;
    }
    if (timed)
      printf(" send=%llu receive=%llu", (unsigned long long)(sending * 1000 / PACKETS),
             (unsigned long long)(receiving * 1000 / PACKETS));
    putchar('\n');
  }
  return 0;
}
