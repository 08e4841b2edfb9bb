/* Asks `jps live` through two pipes (POSIX).
 *
 *     cc -o live live.c && ./live PROGRAM MAP
 */
#include <errno.h>
#include <signal.h>
#include <stdio.h>
#include <stdlib.h>
#include <sys/wait.h>
#include <unistd.h>

static FILE *to_jps, *from_jps;

static void need(int fact, const char *what)
{
    if (!fact) {
        perror(what);
        exit(1);
    }
}

/* Starts `PROGRAM live MAP` between two pipes and returns its process. */
static pid_t start(const char *program, const char *map)
{
    int asked[2], told[2];
    need(pipe(asked) == 0 && pipe(told) == 0, "pipe");
    pid_t child = fork();
    need(child >= 0, "fork");
    if (child == 0) {
        dup2(asked[0], 0);
        dup2(told[1], 1);
        /* an end that stayed open here would keep jps from seeing the end of its input */
        close(asked[0]), close(asked[1]), close(told[0]), close(told[1]);
        execl(program, program, "live", map, (char *)NULL);
        perror(program);
        _exit(127);
    }
    close(asked[0]), close(told[1]);
    to_jps = fdopen(asked[1], "w");
    from_jps = fdopen(told[0], "r");
    need(to_jps && from_jps, "fdopen");
    return child;
}

/* Sends one command and prints the line that answers it. */
static void ask(const char *command)
{
    static char *line;
    static size_t room;
    fprintf(to_jps, "%s\n", command);
    need(fflush(to_jps) == 0, "jps");
    errno = 0;
    if (getline(&line, &room, from_jps) <= 0) {
        need(errno == 0, "jps");
        fputs("jps ended\n", stderr); /* its own line on standard error says why */
        exit(1);
    }
    fputs(line, stdout);
}

int main(int count, char **words)
{
    int status;
    if (count != 3) {
        fputs("usage: live PROGRAM MAP\n", stderr);
        return 2;
    }
    pid_t child = start(words[1], words[2]);
    signal(SIGPIPE, SIG_IGN); /* else a jps that ended would end this program at its next write */
    ask("query 0 0 2 2");
    ask("block 2 1");
    ask("query 0 0 2 2");
    fclose(to_jps); /* the end of its input ends it */
    need(waitpid(child, &status, 0) == child, "waitpid");
    return WIFEXITED(status) ? WEXITSTATUS(status) : 1;
}
