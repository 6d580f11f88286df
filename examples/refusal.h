/* How the examples end: with a refusal, its code and place as numbers and in words, or with all that they printed. */
#ifndef REFUSAL_H
#define REFUSAL_H

#include <parlaqen.h>
#include <stdio.h>

/* Prints the refusal and gives the exit status that goes with it. */
static inline int refused(const char *what, plq_answer answer)
{
    unsigned code = answer.code, place = answer.place;
    fflush(stdout); /* what was shown before comes before the message */
    fprintf(stderr, "%s: refused %u %u: %s\n", what, code, place, plq_code_text(code));
    return 1;
}

/* The exit status of a program that has shown all it wanted to: what it printed must have arrived. */
static inline int shown(void)
{
    if (fflush(stdout) == 0 && !ferror(stdout)) return 0;
    perror("standard output");
    return 2;
}

#endif
