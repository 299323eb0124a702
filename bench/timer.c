/* Times two commands in turn: a run of the one, a run of the other, and so on, each as a whole process.
 *
 *     timer RUNS INPUT FILE START PROGRAM-A WORD.. -- PROGRAM-B WORD..
 *
 * INPUT is the standard input of each run, and its output is discarded. Before each run FILE gets the bytes of START,
 * outside the time. It prints the first quartile, the median and the third one of the nanoseconds of the one and of the
 * other, and those of the ratios of each pair of runs, in thousandths: what else the machine does drifts, and the two
 * runs of a pair are near each other.
 */
#define _GNU_SOURCE
#include <fcntl.h>
#include <spawn.h>
#include <stdio.h>
#include <stdlib.h>
#include <string.h>
#include <sys/wait.h>
#include <time.h>
#include <unistd.h>

extern char **environ;

static void must(int holds, const char *what) {
    if (holds) return;
    perror(what);
    exit(1);
}

static void copy(const char *from, const char *to) {
    static char bytes[1 << 16];
    int in = open(from, O_RDONLY), out = open(to, O_WRONLY | O_CREAT | O_TRUNC, 0666);
    must(in >= 0 && out >= 0, "copy");
    ssize_t count = read(in, bytes, sizeof bytes);
    must(count >= 0 && write(out, bytes, count) == count, "copy");
    must(fsync(out) == 0, "copy");
    close(in);
    close(out);
}

static long long run(char **words, const char *input) {
    posix_spawn_file_actions_t streams;
    struct timespec began, ended;
    pid_t child;
    int status;
    posix_spawn_file_actions_init(&streams);
    posix_spawn_file_actions_addopen(&streams, 0, input, O_RDONLY, 0);
    posix_spawn_file_actions_addopen(&streams, 1, "/dev/null", O_WRONLY, 0);
    clock_gettime(CLOCK_MONOTONIC, &began);
    must(posix_spawn(&child, words[0], &streams, NULL, words, environ) == 0, words[0]);
    must(waitpid(child, &status, 0) == child, "waitpid");
    clock_gettime(CLOCK_MONOTONIC, &ended);
    must(status == 0, words[0]);
    posix_spawn_file_actions_destroy(&streams);
    return (ended.tv_sec - began.tv_sec) * 1000000000LL + ended.tv_nsec - began.tv_nsec;
}

static int order(const void *a, const void *b) {
    long long x = *(const long long *)a, y = *(const long long *)b;
    return (x > y) - (x < y);
}

int main(int words, char **word) {
    must(words > 6, "words");
    int runs = atoi(word[1]), second = 6;
    while (second < words && strcmp(word[second], "--") != 0) second++;
    must(second + 1 < words && runs > 0, "words");
    word[second] = NULL;
    char **commands[2] = {word + 5, word + second + 1};
    long long *times[3];
    for (int i = 0; i < 3; i++) times[i] = calloc(runs, sizeof(long long));
    for (int i = 0; i < 2 * runs; i++) {
        copy(word[4], word[3]);
        times[i % 2][i / 2] = run(commands[i % 2], word[2]);
    }
    for (int i = 0; i < runs; i++) times[2][i] = 1000 * times[0][i] / times[1][i];
    for (int i = 0; i < 3; i++) {
        qsort(times[i], runs, sizeof(long long), order);
        for (int quarter = 1; quarter < 4; quarter++) printf("%lld ", times[i][runs * quarter / 4]);
    }
    printf("\n");
    return 0;
}
