/* The counterpart of reading a script: splits standard input into lines and words, and says how many there are. */
#include <stdio.h>
#include <string.h>

int main(void)
{
    static char line[70000];
    unsigned long lines = 0, words = 0;
    while (fgets(line, sizeof line, stdin)) {
        lines++;
        for (char *at = line, *end; *at && *at != '\n'; at = end + (*end == ' ')) {
            end = at + strcspn(at, " \n");
            words++;
        }
    }
    printf("%lu %lu\n", lines, words);
    return 0;
}
