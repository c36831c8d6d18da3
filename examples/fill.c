/* Fills bytes on the stack, lends them to the host, and gives the first one as the host left it, with its sign. */
__attribute__((import_module("env"), import_name("seen"))) void seen(unsigned char *from, int count);

__attribute__((export_name("run"))) int run(int count) {
  unsigned char bytes[64];
  for (int i = 0; i < count && i < 64; i++) bytes[i] = 128;
  seen(bytes, count);
  return (signed char)(bytes[0] + 1);
}
