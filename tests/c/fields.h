/* The fields of a context by name, in the order in which scripts show them: width in bits, first place in its array, greatest value
 * that a script may write. The context at place i has its number at the first place + i (layout.rt of compressor_table and
 * decompressor_table). */
struct field {
  const char *name;
  int width;
  unsigned place;
  uint32_t most;
};

#define BIT(name, place) {name, 8, place, 1}
#define BYTE(name, place) {name, 8, place, 0xff}
#define SHORT(name, place) {name, 16, place, 0xffff}
#define WORD(name, place) {name, 32, place, 0xffffffff}
#define CSRC(place)                                                                                                              \
  WORD("csrc0", place), WORD("csrc1", place + 64), WORD("csrc2", place + 128), WORD("csrc3", place + 192),                       \
      WORD("csrc4", place + 256), WORD("csrc5", place + 320), WORD("csrc6", place + 384), WORD("csrc7", place + 448),            \
      WORD("csrc8", place + 512), WORD("csrc9", place + 576), WORD("csrc10", place + 640), WORD("csrc11", place + 704),          \
      WORD("csrc12", place + 768), WORD("csrc13", place + 832), WORD("csrc14", place + 896)

static const struct field compressor_fields[] = {
    BIT("status", 0),       WORD("source", 0),      WORD("destination", 64), SHORT("sport", 0),     SHORT("dport", 64),
    WORD("ssrc", 128),      BYTE("tos", 64),        BYTE("ttl", 128),        BYTE("flags", 192),    BIT("padding", 256),
    BIT("extension", 320),  BIT("blank", 384),      SHORT("id", 128),        SHORT("sequence", 192), WORD("timestamp", 192),
    BYTE("payload", 448),   BYTE("cc", 512),        CSRC(384),               SHORT("did", 256),     WORD("dts", 256),
    BIT("earlier", 576),    SHORT("eid", 320),      WORD("ets", 320),        BYTE("idue", 640),     BYTE("sdue", 704),
    BYTE("tdue", 768),      BYTE("pdue", 832),      BYTE("cdue", 896),       BYTE("didue", 960),    BYTE("dtdue", 1024),
    BYTE("fdue", 1088),     BYTE("link", 1152),     BYTE("generation", 1216)};

static const struct field decompressor_fields[] = {
    {"status", 8, 0, 2},    BIT("filled", 64),      WORD("source", 0),       WORD("destination", 64), SHORT("sport", 0),
    SHORT("dport", 64),     WORD("ssrc", 128),      BYTE("tos", 128),        BYTE("ttl", 192),      BYTE("flags", 256),
    BIT("padding", 320),    BIT("extension", 384),  BIT("carried", 448),     BIT("marker", 512),    SHORT("id", 128),
    SHORT("sequence", 192), WORD("timestamp", 192), BYTE("payload", 576),    BYTE("cc", 640),       CSRC(320),
    SHORT("did", 256),      WORD("dts", 256),       BYTE("link", 704),       BYTE("generation", 768)};
