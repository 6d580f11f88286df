/* Runs a program and kills it at a chosen moment.
 *
 *     kill_at STOP PROGRAM [WORDS..]     kills it when it has entered or left system calls STOP times
 *
 * What a program does to files it does by system calls, so between two stops no file changes: killed at stop 1, 2, 3
 * and so on, a program has been killed at every moment that others can tell apart.
 * Exit status: 0 killed, 1 the program ended before that stop, 2 usage or no such program, 3 the system lets no program
 * be followed so. */
#define _DEFAULT_SOURCE
#include <signal.h>
#include <stdio.h>
#include <stdlib.h>
#include <sys/ptrace.h>
#include <sys/wait.h>
#include <unistd.h>

int main(int words, char **word)
{
    char *end;
    if (words < 3) {
        fputs("usage: kill_at STOP PROGRAM [WORDS..]\n", stderr);
        return 2;
    }
    long stops = strtol(word[1], &end, 10);
    pid_t program = fork();
    if (program < 0) return 3;
    if (program == 0) {
        if (ptrace(PTRACE_TRACEME, 0, NULL, NULL) < 0) _exit(3);
        execv(word[2], word + 2);
        _exit(2);
    }

    int status;
    if (waitpid(program, &status, 0) < 0) return 3;
    if (!WIFSTOPPED(status)) return WIFEXITED(status) ? WEXITSTATUS(status) : 3; /* it never began */
    while (stops > 0) {
        if (ptrace(PTRACE_SYSCALL, program, NULL, NULL) < 0 || waitpid(program, &status, 0) < 0) return 3;
        if (WIFEXITED(status) || WIFSIGNALED(status)) return 1;
        stops--;
    }
    kill(program, SIGKILL);
    return waitpid(program, &status, 0) == program && WIFSIGNALED(status) ? 0 : 3;
}
