/* The greatest common divisor of two numbers, by gcd.lst. */
#include <stdio.h>

extern long start(long a, long b);

int main(void) {
    printf("a0 %ld\n", start(1071, 462));
    return 0;
}
