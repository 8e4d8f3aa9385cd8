/* Plays the scenario of a file through the library, and prints its answers: status 1 where it ends early. */
#include "dabberblue.h"

#include <stdio.h>

static uint8_t scenario[1 << 20];
static uint8_t answers[1 << 20];

int main(int argc, char **argv)
{
    FILE *file = argc == 2 ? fopen(argv[1], "rb") : NULL;
    if (!file)
        return 2;
    size_t len = fread(scenario, 1, sizeof scenario, file);
    fclose(file);
    struct dabberblue_played played = dabberblue_play(scenario, len, answers, sizeof answers);
    fwrite(answers, 1, played.written, stdout);
    return played.status != DABBERBLUE_DONE;
}
