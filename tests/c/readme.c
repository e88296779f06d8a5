#include <stdio.h>
#include <string.h>
#include "iarwennol.h"

static iarwennol_compressor near;
static iarwennol_decompressor far;
static uint8_t packet[] = {
    0x45, 0, 0, 44, 0, 1, 0x40, 0, 64, 17, 0x25, 0xbf, 10, 0, 0, 1, 10, 0, 1, 1, /* IPv4 */
    0x0f, 0xa0, 0x13, 0x8c, 0, 24, 0, 0,                                         /* UDP */
    0x80, 0, 0, 1, 0, 0, 0, 0, 0, 0, 0x10, 0,                                    /* RTP */
    's', 't', 'o', 'p'};

int main(void) {
  uint8_t link[sizeof packet], rebuilt[sizeof packet];
  iarwennol_start_compressor(&near, 0, 64); /* N 0: no loss to be survived; K 64: up to 64 flows */
  iarwennol_start_decompressor(&far, 0, 64);
  for (int i = 0; i < 4; i++) {
    iarwennol_answer sent = iarwennol_compress(&near, packet, sizeof packet, link, sizeof link);
    iarwennol_answer got = iarwennol_decompress(&far, sent.type, link, sent.length, rebuilt, sizeof rebuilt);
    printf("%zu bytes, on the link type %d, %zu bytes:", sizeof packet, sent.type, sent.length);
    for (size_t j = 0; j < sent.length; j++) printf(" %02x", link[j]);
    puts(got.length == sizeof packet && !memcmp(rebuilt, packet, sizeof packet) ? ", rebuilt the same" : ", WRONG");
    packet[5]++, packet[11]--;  /* the next IP ID, and the checksum that goes with it */
    packet[31]++, packet[34]++; /* the next sequence number; a timestamp 256 on */
  }
  return 0;
}
