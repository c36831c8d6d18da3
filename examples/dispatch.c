/* Reverse Polish notation over function pointers: "2 3 + 4 *" is 20. */
typedef long long number;
typedef number (*operation)(number, number);

static number add(number a, number b) { return a + b; }
static number subtract(number a, number b) { return a - b; }
static number multiply(number a, number b) { return a * b; }

/* By the sign; a host may put another sign in the place of one, so the compiler keeps the table. */
volatile struct {
  char sign;
  operation run;
} operations[] = {{'+', add}, {'-', subtract}, {'*', multiply}};

static char text[256];
static number stack[16];

__attribute__((export_name("text"))) char *text_at(void) { return text; }

__attribute__((export_name("evaluate"))) number evaluate(int length) {
  int depth = 0;
  for (int i = 0; i < length; i++) {
    char c = text[i];
    if (c >= '0' && c <= '9') {
      stack[depth++] = c - '0';
      continue;
    }
    for (int k = 0; k < 3; k++) {
      if (operations[k].sign == c) {
        depth--;
        stack[depth - 1] = operations[k].run(stack[depth - 1], stack[depth]);
      }
    }
  }
  return stack[0];
}
