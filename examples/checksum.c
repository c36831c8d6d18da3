/* The CRC-32 of bytes that the host has put into memory, by a table that is made first. */
static unsigned table[256];
static unsigned char buffer[4096];

__attribute__((export_name("buffer"))) unsigned char *buffer_at(void) { return buffer; }

__attribute__((export_name("prepare"))) void prepare(void) {
  for (unsigned i = 0; i < 256; i++) {
    unsigned c = i;
    for (int k = 0; k < 8; k++) c = c & 1 ? 0xedb88320u ^ (c >> 1) : c >> 1;
    table[i] = c;
  }
}

__attribute__((export_name("checksum"))) unsigned checksum(unsigned length) {
  unsigned c = ~0u;
  for (unsigned i = 0; i < length; i++) c = table[(c ^ buffer[i]) & 255] ^ (c >> 8);
  return ~c;
}
