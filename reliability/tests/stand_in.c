/* Stands in for the program in tests: reads the files among its words, takes memory, and answers. What it does wrongly is chosen by a macro. */
#include <fcntl.h>
#include <stdlib.h>
#include <string.h>
#include <unistd.h>

#ifndef TAKES
#define TAKES 1000
#endif

static const char answer[] = "an answer of some length\n";

static int put(const char *text, size_t count)
{
    while (count > 0) {
        ssize_t taken = write(1, text, count);
#ifdef HIDES_FAILED_WRITE
        if (taken < 0) return 0;
#endif
        if (taken < 0) return 7;
        text += taken;
        count -= taken;
    }
    return 0;
}

int main(int count, char **words)
{
    char bytes[4096];
    for (int i = 1; i < count; i++) {
        if (!strchr(words[i], '/')) continue;
        int file = open(words[i], O_RDONLY);
        if (file < 0) return 6;
        ssize_t taken;
        while ((taken = read(file, bytes, sizeof bytes)) > 0) continue;
#ifndef HIDES_FAILED_READ
        if (taken < 0) return 6;
#endif
        close(file);
    }
#ifdef WRITES_TOO_EARLY
    put(answer, 4);
#endif
    size_t size = TAKES;
    char *memory = malloc(size);
#ifdef ANSWERS_WITHOUT_MEMORY
    if (!memory) return put("no\n", 3);
#endif
#ifndef USES_REFUSED_MEMORY
    if (!memory) return 9;
#endif
    memset(memory, 1, size);
#ifdef SAYS_UNREAD
    for (int i = 0; i < 100; i++)
        if (!malloc(16)) return 6;
#endif
#ifdef WRITES_TOO_EARLY
    return put(answer + 4, sizeof answer - 5);
#endif
    return put(answer, sizeof answer - 1);
}
