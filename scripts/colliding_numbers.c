/* Prints instances whose numbers have hashes with the same last bits, so that they would all begin at one place of a table that
   hashes them with a fixed seed:
       colliding_numbers COUNT BITS
   The hash is that of the toolchain's maps with their fixed seed: the number, mixed with the seed, times a constant, with the
   two halves of the product and then the two halves of that joined by exclusive or. */
#include <stdio.h>
#include <stdlib.h>

int main(int count, char **words) {
    const unsigned long long seed = 0x243f6a8885a308d3ull, constant = 0x9e3779b97f4a7c15ull ^ 16;
    unsigned long long number = 1000, left, mask;
    if (count != 3) return 1;
    left = strtoull(words[1], NULL, 10);
    mask = (1ull << strtoul(words[2], NULL, 10)) - 1;
    for (; left > 0; number++) {
        unsigned __int128 product = (unsigned __int128)(seed ^ number) * constant;
        unsigned long long hash = (unsigned long long)product ^ (unsigned long long)(product >> 64);
        if (((hash ^ hash >> 32) & mask) != 0) continue;
        printf("#%llu=A();\n", number);
        left--;
    }
    return 0;
}
