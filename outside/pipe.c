/* The library's calls behind a pipe: each request, and each reply, goes behind its length, a number of four bytes. The library is x86-64 code; the program that asks may
 * run on any machine. */
#include <stdio.h>
#include <stdlib.h>
#include "serve.h"

int main(void) {
    uint8_t *request = NULL;
    uint32_t size, room = 0;
    while (fread(&size, sizeof size, 1, stdin) == 1) {
        if (size > room && !(request = realloc(request, room = size))) return 3;
        if (fread(request, 1, size, stdin) != size) return 2;
        const uint8_t *reply;
        uint32_t told = (uint32_t)serve(request, size, &reply);
        if (fwrite(&told, sizeof told, 1, stdout) != 1 || fwrite(reply, 1, told, stdout) != told || fflush(stdout)) return 2;
    }
    return 0;
}
