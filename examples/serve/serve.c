/* A game over `jps serve` (POSIX): 200 units that go through a gate, towers that may not close it, and a process that
 * is killed.
 *
 *     cc -o serve serve.c && ./serve PROGRAM MAP
 */
#include <signal.h>
#include <stdio.h>
#include <stdlib.h>
#include <string.h>
#include <sys/types.h>
#include <sys/wait.h>
#include <unistd.h>

enum { WIDTH = 24, HEIGHT = 10, UNITS = 200, GOAL_X = 23, GOAL_Y = 4 };

struct cell {
    int x, y;
};

static const char *program, *map;
static pid_t jps;
static FILE *to_jps, *from_jps;
static const char *edits[HEIGHT][WIDTH]; /* the last edit of each cell, which are told to a process that begins anew */

static void need(int fact, const char *what)
{
    if (!fact) {
        perror(what);
        exit(1);
    }
}

static void start(void)
{
    int asked[2], told[2];
    need(pipe(asked) == 0 && pipe(told) == 0, "pipe");
    jps = fork();
    need(jps >= 0, "fork");
    if (jps == 0) {
        dup2(asked[0], 0);
        dup2(told[1], 1);
        /* an end that stayed open here would keep jps from seeing the end of its input */
        close(asked[0]), close(asked[1]), close(told[0]), close(told[1]);
        execl(program, program, "serve", map, (char *)NULL);
        perror(program);
        _exit(127);
    }
    close(asked[0]), close(told[1]);
    to_jps = fdopen(asked[1], "w");
    from_jps = fdopen(told[0], "r");
    need(to_jps && from_jps, "fdopen");
}

/* The end of its input ends it. Returns its status. */
static int end(void)
{
    int status;
    fclose(to_jps), fclose(from_jps);
    need(waitpid(jps, &status, 0) == jps, "waitpid");
    return WIFEXITED(status) ? WEXITSTATUS(status) : 1;
}

/* Puts the next answer into the text, which has to be free'd: a line, or a heading and the rows of a field or of costs.
 * Returns whether it came whole. */
static int answered(char **text)
{
    static char *line;
    static size_t room;
    size_t length = 0;
    int rows = 0;
    *text = NULL;
    for (int k = 0; k <= rows; k++) {
        ssize_t count = getline(&line, &room, from_jps);
        if (count <= 0 || line[count - 1] != '\n') {
            free(*text);
            return 0;
        }
        if (k == 0 && sscanf(line, "field %*d %d", &rows) < 1)
            sscanf(line, "costs %*d %d", &rows);
        *text = realloc(*text, length + count + 1);
        need(*text != NULL, "realloc");
        memcpy(*text + length, line, count + 1);
        length += count;
    }
    return 1;
}

/* Begins anew, with the edits so far. */
static void begin(void)
{
    char *answer;
    start();
    for (int y = 0; y < HEIGHT; y++)
        for (int x = 0; x < WIDTH; x++)
            if (edits[y][x]) {
                fprintf(to_jps, "%s %d %d\n", edits[y][x], x, y);
                if (fflush(to_jps) || !answered(&answer)) {
                    fputs("jps ended\n", stderr); /* its own line on standard error says why */
                    exit(1);
                }
                free(answer);
            }
}

/* Sends so many lines, of at most 32 KiB, and puts their answers there. Begins anew where jps ended. */
static void ask(const char *lines, char **answers, int count)
{
    for (int turn = 0;; turn++) {
        int got = 0;
        fputs(lines, to_jps);
        if (fflush(to_jps) == 0)
            while (got < count && answered(&answers[got]))
                got++;
        if (got == count)
            return;
        while (got)
            free(answers[--got]);
        end();
        if (turn) {
            fputs("jps ended\n", stderr);
            exit(1);
        }
        begin();
    }
}

static void edit(const char *word, int x, int y)
{
    char lines[64], *answer;
    snprintf(lines, sizeof lines, "%s %d %d\n", word, x, y);
    ask(lines, &answer, 1);
    if (strcmp(answer, "ok\n") == 0)
        edits[y][x] = word;
    free(answer);
}

/* Builds a tower, unless that closes the way. */
static void build(int x, int y)
{
    char lines[64], *answer;
    edit("block", x, y);
    snprintf(lines, sizeof lines, "query 0 0 %d %d\n", GOAL_X, GOAL_Y);
    ask(lines, &answer, 1);
    int stands = strncmp(answer, "walk ", 5) == 0;
    if (!stands)
        edit("free", x, y);
    printf("tower at %d,%d: %s\n", x, y, stands ? "stands" : "would close the way");
    free(answer);
}

/* The next cell towards the second point of a walk; where there is none, or no walk, the unit stays. */
static struct cell moved(struct cell at, const char *answer)
{
    struct cell to;
    if (sscanf(answer, "walk %*d %*d %*d,%*d %d,%d", &to.x, &to.y) < 2)
        return at;
    return (struct cell){at.x + (to.x > at.x) - (to.x < at.x), at.y + (to.y > at.y) - (to.y < at.y)};
}

static int is_at_goal(struct cell at) { return at.x == GOAL_X && at.y == GOAL_Y; }

/* Each unit begins on a cell of its own. */
static void send_home(struct cell *units)
{
    for (int k = 0; k < UNITS; k++)
        units[k] = (struct cell){k / HEIGHT, k % HEIGHT};
}

/* How many units are not yet there after a tick. Where none of these has gone on the game ends. */
static int left(int away, int gone_on)
{
    if (away && !gone_on) {
        fputs("some units have no way\n", stderr);
        exit(1);
    }
    return away;
}

/* A tick of units that ask each for itself; returns how many are not yet there. */
static int tick_by_walks(struct cell *units)
{
    static char lines[UNITS * 64], *answers[UNITS];
    int length = 0, away = 0, gone_on = 0;
    for (int k = 0; k < UNITS; k++)
        length += sprintf(lines + length, "near %d %d %d %d\n", units[k].x, units[k].y, GOAL_X, GOAL_Y);
    ask(lines, answers, UNITS);
    for (int k = 0; k < UNITS; k++) {
        struct cell to = moved(units[k], answers[k]);
        gone_on += to.x != units[k].x || to.y != units[k].y;
        units[k] = to;
        away += !is_at_goal(to);
        free(answers[k]);
    }
    return left(away, gone_on);
}

/* A tick of units that are led by a field. */
static int tick_by_field(struct cell *units, const char *field)
{
    const char *rows = strchr(field, '\n') + 1;
    static const struct cell steps[] = {{0, -1}, {1, -1}, {1, 0}, {1, 1}, {0, 1}, {-1, 1}, {-1, 0}, {-1, -1}};
    int away = 0, gone_on = 0;
    for (int k = 0; k < UNITS; k++) {
        char letter = rows[units[k].y * (WIDTH + 1) + units[k].x];
        if (letter >= '0' && letter <= '7') {
            units[k].x += steps[letter - '0'].x;
            units[k].y += steps[letter - '0'].y;
            gone_on++;
        }
        away += !is_at_goal(units[k]);
    }
    return left(away, gone_on);
}

int main(int count, char **words)
{
    struct cell units[UNITS];
    char lines[64], head[64], *field;
    if (count != 3) {
        fputs("usage: serve PROGRAM MAP\n", stderr);
        return 2;
    }
    program = words[1], map = words[2];
    signal(SIGPIPE, SIG_IGN); /* else a jps that ended would end this program at its next write */
    begin();
    build(20, 4);
    build(22, 4);

    int ticks = 1;
    for (send_home(units); tick_by_walks(units); ticks++)
        if (ticks == 10)
            kill(jps, SIGKILL);
    printf("each by its walk: all %d are there after %d ticks\n", UNITS, ticks);

    snprintf(lines, sizeof lines, "field %d %d\n", GOAL_X, GOAL_Y);
    ask(lines, &field, 1);
    snprintf(head, sizeof head, "field %d %d\n", WIDTH, HEIGHT);
    if (strncmp(field, head, strlen(head)) != 0) {
        printf("the field is %.*s\n", (int)strcspn(field, "\n"), field);
        return 1;
    }
    ticks = 1;
    for (send_home(units); tick_by_field(units, field); ticks++)
        ;
    printf("by the field: all %d are there after %d ticks\n", UNITS, ticks);
    free(field);
    return end();
}
