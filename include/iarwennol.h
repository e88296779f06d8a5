/* Iarwennol for C and C++: a proved IPv4/UDP/RTP header compressor. Link libiarwennol.a (`tests/staticlib`).
 *
 * Each end has its table in a struct of the caller's, which points nowhere: it may be copied, and all zero it is not open. Any
 * bytes, tables and settings may be handed in; every call ends. What two pointers of one call lead to must not overlap, and a
 * pointer must not be null even where the count is 0. Nothing is shared between calls, so ends may be used by threads of their own.
 */
#ifndef IARWENNOL_H
#define IARWENNOL_H

#include <stddef.h>
#include <stdint.h>

#ifdef __cplusplus
extern "C" {
#endif

/* Lengths of the tables, and the places in their bytes where N and K stand. */
enum {
  IARWENNOL_COMPRESSOR_WORDS = 1344,
  IARWENNOL_COMPRESSOR_SHORTS = 384,
  IARWENNOL_COMPRESSOR_BYTES = 1282,
  IARWENNOL_COMPRESSOR_N = 1280,
  IARWENNOL_COMPRESSOR_K = 1281,
  IARWENNOL_DECOMPRESSOR_WORDS = 1280,
  IARWENNOL_DECOMPRESSOR_SHORTS = 320,
  IARWENNOL_DECOMPRESSOR_BYTES = 834,
  IARWENNOL_DECOMPRESSOR_N = 832,
  IARWENNOL_DECOMPRESSOR_K = 833,
  IARWENNOL_TOTALS = 6
};

/* Limits: N, the packets lost in a row that the link may have, is 0 to 14; K, the flows at a time, 1 to 64. */
enum {
  IARWENNOL_MOST_N = 14,
  IARWENNOL_MOST_K = 64,
  IARWENNOL_LONGEST_PACKET = 1500,
  IARWENNOL_LONGEST_FILE = 7045
};

/* Link types. */
enum {
  IARWENNOL_PLAIN = 0,
  IARWENNOL_FULL_HEADER = 1,
  IARWENNOL_COMPRESSED_UDP = 2,
  IARWENNOL_COMPRESSED_RTP = 3,
  IARWENNOL_CONTEXT_STATE = 4
};

/* Numbers of an answer. */
enum {
  IARWENNOL_ACCEPTED = 0,
  IARWENNOL_UNSOUND = 1,         /* the table is none that calls leave; at opening, N or K is out of range */
  IARWENNOL_BAD_LENGTH = 2,      /* the packet is empty or too long */
  IARWENNOL_UNKNOWN_TYPE = 3,    /* the link type is over 3 */
  IARWENNOL_CUT = 4,             /* part of a field is missing */
  IARWENNOL_FORBIDDEN = 5,       /* a field has a form that the rules forbid */
  IARWENNOL_NO_SUCH_CONTEXT = 6, /* the context's number is K or higher */
  IARWENNOL_UNUSED_CODE = 7,     /* a difference has a code that means nothing */
  IARWENNOL_NOT_LIVE = 8,        /* the context waits for a full header */
  IARWENNOL_OUT_OF_STEP = 9,     /* more than N packets were lost */
  IARWENNOL_TOO_LONG = 10,       /* the rebuilt packet would be too long */
  IARWENNOL_NO_ROOM = 11,        /* the output is too short */
  IARWENNOL_DISPROVED = 12       /* the UDP checksum says that the packet was rebuilt wrong */
};

/* Places of an endpoint's totals: packets sent by link type, packets rebuilt, calls refused. */
enum {
  IARWENNOL_TOTAL_PLAIN = 0,
  IARWENNOL_TOTAL_FULL_HEADER = 1,
  IARWENNOL_TOTAL_COMPRESSED_UDP = 2,
  IARWENNOL_TOTAL_COMPRESSED_RTP = 3,
  IARWENNOL_TOTAL_REBUILT = 4,
  IARWENNOL_TOTAL_REFUSED = 5
};

typedef struct {
  uint32_t words[IARWENNOL_COMPRESSOR_WORDS];
  uint16_t shorts[IARWENNOL_COMPRESSOR_SHORTS];
  uint8_t bytes[IARWENNOL_COMPRESSOR_BYTES];
} iarwennol_compressor;

typedef struct {
  uint32_t words[IARWENNOL_DECOMPRESSOR_WORDS];
  uint16_t shorts[IARWENNOL_DECOMPRESSOR_SHORTS];
  uint8_t bytes[IARWENNOL_DECOMPRESSOR_BYTES];
} iarwennol_decompressor;

/* Both ends in one place, for a link with voice both ways. */
typedef struct {
  iarwennol_compressor compressor;
  iarwennol_decompressor decompressor;
  uint32_t totals[IARWENNOL_TOTALS];
} iarwennol_endpoint;

/* The answer of a call: 0 or why it was refused; the link type, which only what sends has; how many bytes of output were written.
 * A refused call has type and length 0 and leaves the output as it was. */
typedef struct {
  uint8_t number;
  uint8_t type;
  size_t length;
} iarwennol_answer;

/* The calls as the library exports them, on tables in any place: each slice is a pointer and a count. The answer has the number in
 * bits 0 to 7, the link type in bits 8 to 15 and the length above. A table with a slice of another length is refused 1. */
uint64_t iarwennol_open_compressor(uint32_t *words, size_t, uint16_t *shorts, size_t, uint8_t *bytes, size_t,
                                   uint32_t n, uint32_t k);
uint64_t iarwennol_send(uint32_t *words, size_t, uint16_t *shorts, size_t, uint8_t *bytes, size_t,
                        const uint8_t *packet, size_t, uint8_t *out, size_t);
uint64_t iarwennol_request(uint32_t *words, size_t, uint16_t *shorts, size_t, uint8_t *bytes, size_t,
                           const uint8_t *report, size_t);
uint64_t iarwennol_open_decompressor(uint32_t *words, size_t, uint16_t *shorts, size_t, uint8_t *bytes, size_t,
                                     uint32_t n, uint32_t k);
uint64_t iarwennol_receive(uint32_t *words, size_t, uint16_t *shorts, size_t, uint8_t *bytes, size_t,
                           uint32_t type, const uint8_t *packet, size_t, uint8_t *out, size_t);
uint64_t iarwennol_report(const uint32_t *words, size_t, const uint16_t *shorts, size_t, const uint8_t *bytes, size_t,
                          uint8_t *out, size_t);
uint64_t iarwennol_save(const uint32_t *words, size_t, const uint16_t *shorts, size_t, const uint8_t *bytes, size_t,
                        uint8_t *out, size_t);
uint64_t iarwennol_load(uint32_t *words, size_t, uint16_t *shorts, size_t, uint8_t *bytes, size_t, const uint8_t *file, size_t);
uint64_t iarwennol_endpoint_open(uint32_t *compressor_words, size_t, uint16_t *compressor_shorts, size_t,
                                 uint8_t *compressor_bytes, size_t, uint32_t *decompressor_words, size_t,
                                 uint16_t *decompressor_shorts, size_t, uint8_t *decompressor_bytes, size_t,
                                 uint32_t *totals, size_t, uint32_t n, uint32_t k);
uint64_t iarwennol_endpoint_wire(uint32_t *compressor_words, size_t, uint16_t *compressor_shorts, size_t,
                                 uint8_t *compressor_bytes, size_t, uint32_t *totals, size_t,
                                 const uint8_t *packet, size_t, uint8_t *out, size_t);
uint64_t iarwennol_endpoint_radio(uint32_t *compressor_words, size_t, uint16_t *compressor_shorts, size_t,
                                  uint8_t *compressor_bytes, size_t, uint32_t *decompressor_words, size_t,
                                  uint16_t *decompressor_shorts, size_t, uint8_t *decompressor_bytes, size_t,
                                  uint32_t *totals, size_t, uint32_t type, const uint8_t *packet, size_t, uint8_t *out, size_t);
uint64_t iarwennol_endpoint_report(const uint32_t *decompressor_words, size_t, const uint16_t *decompressor_shorts, size_t,
                                   const uint8_t *decompressor_bytes, size_t, uint32_t *totals, size_t, uint8_t *out, size_t);

/* The same calls on the structs. */
#define IARWENNOL_C(c) \
  (c)->words, IARWENNOL_COMPRESSOR_WORDS, (c)->shorts, IARWENNOL_COMPRESSOR_SHORTS, (c)->bytes, IARWENNOL_COMPRESSOR_BYTES
#define IARWENNOL_D(d) \
  (d)->words, IARWENNOL_DECOMPRESSOR_WORDS, (d)->shorts, IARWENNOL_DECOMPRESSOR_SHORTS, (d)->bytes, IARWENNOL_DECOMPRESSOR_BYTES

static inline iarwennol_answer iarwennol_unpack(uint64_t packed) {
  iarwennol_answer a;
  a.number = (uint8_t)packed;
  a.type = (uint8_t)(packed >> 8);
  a.length = (size_t)(packed >> 16);
  return a;
}

/* Opens an end, whatever its struct held. Both ends of a link get the same N and K. */
static inline iarwennol_answer iarwennol_start_compressor(iarwennol_compressor *c, uint32_t n, uint32_t k) {
  return iarwennol_unpack(iarwennol_open_compressor(IARWENNOL_C(c), n, k));
}

static inline iarwennol_answer iarwennol_start_decompressor(iarwennol_decompressor *d, uint32_t n, uint32_t k) {
  return iarwennol_unpack(iarwennol_open_decompressor(IARWENNOL_D(d), n, k));
}

/* Makes a link packet of a packet; it is never longer. */
static inline iarwennol_answer iarwennol_compress(iarwennol_compressor *c, const uint8_t *packet, size_t n,
                                                  uint8_t *out, size_t room) {
  return iarwennol_unpack(iarwennol_send(IARWENNOL_C(c), packet, n, out, room));
}

/* Takes the other end's report: what it names gets full headers again. */
static inline iarwennol_answer iarwennol_take_report(iarwennol_compressor *c, const uint8_t *report, size_t n) {
  return iarwennol_unpack(iarwennol_request(IARWENNOL_C(c), report, n));
}

/* Makes the packet of a link packet. */
static inline iarwennol_answer iarwennol_decompress(iarwennol_decompressor *d, uint32_t type, const uint8_t *packet, size_t n,
                                                    uint8_t *out, size_t room) {
  return iarwennol_unpack(iarwennol_receive(IARWENNOL_D(d), type, packet, n, out, room));
}

/* Writes what to send back, as CONTEXT_STATE, of contexts that wait for a full header; length 0 where none does. */
static inline iarwennol_answer iarwennol_make_report(const iarwennol_decompressor *d, uint8_t *out, size_t room) {
  return iarwennol_unpack(iarwennol_report(IARWENNOL_D(d), out, room));
}

/* The decompressor's table as bytes, to be kept over a restart, and back. */
static inline iarwennol_answer iarwennol_save_table(const iarwennol_decompressor *d, uint8_t *out, size_t room) {
  return iarwennol_unpack(iarwennol_save(IARWENNOL_D(d), out, room));
}

static inline iarwennol_answer iarwennol_load_table(iarwennol_decompressor *d, const uint8_t *file, size_t n) {
  return iarwennol_unpack(iarwennol_load(IARWENNOL_D(d), file, n));
}

static inline iarwennol_answer iarwennol_start_endpoint(iarwennol_endpoint *e, uint32_t n, uint32_t k) {
  return iarwennol_unpack(iarwennol_endpoint_open(IARWENNOL_C(&e->compressor), IARWENNOL_D(&e->decompressor), e->totals,
                                                  IARWENNOL_TOTALS, n, k));
}

/* A packet from the wire: makes the link packet for the radio. */
static inline iarwennol_answer iarwennol_from_wire(iarwennol_endpoint *e, const uint8_t *packet, size_t n,
                                                   uint8_t *out, size_t room) {
  return iarwennol_unpack(iarwennol_endpoint_wire(IARWENNOL_C(&e->compressor), e->totals, IARWENNOL_TOTALS, packet, n, out, room));
}

/* A link packet from the radio: a CONTEXT_STATE goes to the compressor and gives out nothing, any other is rebuilt. */
static inline iarwennol_answer iarwennol_from_radio(iarwennol_endpoint *e, uint32_t type, const uint8_t *packet, size_t n,
                                                    uint8_t *out, size_t room) {
  return iarwennol_unpack(iarwennol_endpoint_radio(IARWENNOL_C(&e->compressor), IARWENNOL_D(&e->decompressor), e->totals,
                                                   IARWENNOL_TOTALS, type, packet, n, out, room));
}

static inline iarwennol_answer iarwennol_make_endpoint_report(iarwennol_endpoint *e, uint8_t *out, size_t room) {
  return iarwennol_unpack(iarwennol_endpoint_report(IARWENNOL_D(&e->decompressor), e->totals, IARWENNOL_TOTALS, out, room));
}

#undef IARWENNOL_C
#undef IARWENNOL_D

#ifdef __cplusplus
}
#endif

#endif
