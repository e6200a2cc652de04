/* A counter, a table and a total for symbols.lst. */
#include <stdio.h>

extern long start(void);

long userextname0 = 5;
long userextname1[3] = {1, 2, 30};
long userextname2[2];

int main(void) {
    long sum = start();
    printf("a0 %ld\ntotal %ld\n", sum, userextname2[1]);
    return 0;
}
