/* A driver that does nothing: it answers each request of standard input by `done` at once, all that
   one read gives by one write. At the end it says on standard error how many requests there were,
   and how many reads. */
#include <stdio.h>
#include <string.h>
#include <unistd.h>

static char text[1 << 17], answers[1 << 17];
static long requests;

/* Puts the answer to a line where `to` points, and gives the place behind it. */
static char *answer(const char *line, const char *end, char *to)
{
    if (end - line < 6 || (memcmp(line, "start ", 6) != 0 && memcmp(line, "again ", 6) != 0))
        return to;
    const char *word = line + 6, *rest = memchr(word, ' ', end - word);
    const char *behind = rest ? memchr(rest + 1, ' ', end - rest - 1) : NULL;
    if (!rest)
        return to;
    if (!behind)
        behind = end;
    memcpy(to, "done ", 5);
    memcpy(to + 5, word, behind - word);
    to += 5 + (behind - word);
    *to++ = '\n';
    requests++;
    return to;
}

int main(void)
{
    size_t held = 0;
    long reads = 0;
    for (ssize_t got; (got = read(0, text + held, sizeof text - held)) > 0; reads++) {
        char *line = text, *end, *behind = text + held + got, *to = answers;
        for (; (end = memchr(line, '\n', behind - line)); line = end + 1)
            to = answer(line, end, to);
        held = behind - line;
        memmove(text, line, held);
        for (char *from = answers; from < to; from += got)
            if ((got = write(1, from, to - from)) <= 0)
                return 1;
    }
    fprintf(stderr, "%ld %ld\n", requests, reads);
    return 0;
}
