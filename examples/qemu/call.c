/* Calls call.lst twice: with numbers whose squares have a sum, and with zeros, where it calls the symbol. */
#include <stdio.h>

extern long start(long a, long b);

long userextname0(void) {
    return 77;
}

int main(void) {
    printf("a0 %ld\n", start(3, 4));
    printf("a0 %ld\n", start(0, 0));
    return 0;
}
