/* The sum of the squares of two numbers, by hypot.lst, as the bits of a double. */
#include <stdio.h>
#include <string.h>

extern double start(double a, double b);

int main(void) {
    double sum = start(3.0, 4.0);
    unsigned long bits;
    memcpy(&bits, &sum, sizeof bits);
    printf("fa0 0x%lx\n", bits);
    return 0;
}
