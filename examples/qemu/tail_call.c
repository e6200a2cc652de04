/* Calls tail_call.lst twice: it leaves its place to the function of its own, and, where the product is 0, to the symbol. */
#include <stdio.h>

extern long start(long a, long b);

long userextname0(long a) {
    return a + 1000;
}

int main(void) {
    printf("a0 %ld\n", start(3, 4));
    printf("a0 %ld\n", start(5, 0));
    return 0;
}
