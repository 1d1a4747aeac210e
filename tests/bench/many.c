/* Runs the bench program's main, built with -Dmain=bench_main, once for each line of a list: many LIST FOLDER. A memory checker that takes a
 * second to start then starts once for all. A line holds the file for the program's standard input and then its arguments, one space apart,
 * '' for an empty one. What comes from line N, counted from 0, is left in N.out, N.err and N.exit of the folder. */
#include <fcntl.h>
#include <stdio.h>
#include <string.h>
#include <unistd.h>

#define MOST 64

int bench_main(int count, char **arguments);

static void redirect(int to, int from)
{
    dup2(from, to);
    close(from);
}

static int made(const char *folder, unsigned line, const char *kind)
{
    char name[4096];
    snprintf(name, sizeof name, "%s/%u.%s", folder, line, kind);
    return open(name, O_WRONLY | O_CREAT | O_TRUNC, 0666);
}

static void run_line(const char *folder, unsigned line, char *text)
{
    char *arguments[MOST + 1] = {"bench"}, *word;
    int count = 1;
    redirect(0, open(strsep(&text, " "), O_RDONLY));
    redirect(1, made(folder, line, "out"));
    redirect(2, made(folder, line, "err"));
    while (count < MOST && (word = strsep(&text, " ")))
        arguments[count++] = strcmp(word, "''") ? word : "";
    int status = bench_main(count, arguments), end = made(folder, line, "exit");
    dprintf(end, "%d\n", status);
    close(end);
}

int main(int count, char **arguments)
{
    char text[4096];
    FILE *list = count == 3 ? fopen(arguments[1], "r") : NULL;
    if (!list)
        return 1;
    int complaints = dup(2);
    for (unsigned line = 0; fgets(text, sizeof text, list); line++) {
        text[strcspn(text, "\n")] = '\0';
        run_line(arguments[2], line, text);
    }
    fclose(list);
    /* Leaks are told at the end, and not to the last run. */
    redirect(2, complaints);
    return 0;
}
