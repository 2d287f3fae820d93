/* Plays the script in a file, and prints each answer in hex. */
#include "rallwog.h"
#include <stdio.h>

enum { RECORD = 80, ANSWER = 16, MOST = 800 };

int main(int argc, char **argv) {
    static uint8_t script[MOST * RECORD + 1];
    static uint8_t answers[MOST * ANSWER];
    FILE *file = argc == 2 ? fopen(argv[1], "rb") : NULL;
    if (file == NULL) {
        fprintf(stderr, "play: expected the name of a script that can be read\n");
        return 2;
    }
    size_t len = fread(script, 1, sizeof script, file);
    fclose(file);
    if (run_script(script, len, answers, sizeof answers) != 0) {
        printf("1\n");
        return 1;
    }
    for (size_t i = 0; i < len / RECORD; i++) {
        for (size_t k = 0; k < ANSWER; k++) {
            printf("%02x", answers[i * ANSWER + k]);
        }
        printf("\n");
    }
    return 0;
}
