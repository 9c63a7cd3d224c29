/* Lists every query of a gym file, given as the one argument or on standard input, and then the summary: what the program
 * `resolve` prints. For a refused file it prints the line `refused N` alone. What was refused is said in words on standard
 * error. */
#include "tewhoranu.h"

#include <stdio.h>

/* One byte more than a file may have: a longer one is told by that byte. */
static uint8_t text[TEWHORANU_TEXT + 1];
static uint8_t out[TEWHORANU_LISTING];

static void print_answer(uint64_t answer)
{
    if (tewhoranu_refused(answer)) {
        printf("refused %d\n", (int)answer);
        fprintf(stderr, "refused %d: %s\n", (int)answer, tewhoranu_refusal_text(answer));
    } else {
        fwrite(out, 1, tewhoranu_written(answer), stdout);
    }
}

int main(int argc, char **argv)
{
    FILE *file = argc > 1 ? fopen(argv[1], "rb") : stdin;
    size_t length, query;
    uint64_t answer;

    if (file == NULL) {
        perror(argv[1]);
        return 1;
    }
    length = fread(text, 1, sizeof text, file);
    if (ferror(file)) {
        perror("reading");
        return 1;
    }

    for (query = 0;; query++) {
        answer = tewhoranu_listing(text, length, query, out, sizeof out);
        if (answer == TEWHORANU_NO_QUERY)
            break;
        print_answer(answer);
        if (answer <= TEWHORANU_NO_ORDER)
            return 0; /* the file itself is refused */
    }
    print_answer(tewhoranu_summary(text, length, out, sizeof out));
    return fflush(stdout) == 0 ? 0 : 1;
}
