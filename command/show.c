/* The word show: a table as plain text, with the names that are known behind its lines. */
#include <string.h>

#include "command.h"

/* The first line is the budget's, and each that follows one task's. */
static void print_lines(const struct table *table, const char *text, const char *end)
{
    for (unsigned line = 0; text < end; line++) {
        const char *feed = memchr(text, '\n', (size_t)(end - text));
        fwrite(text, 1, (size_t)(feed - text), stdout);
        if (line > 0 && table->names[line - 1].len > 0) {
            printf("  # ");
            print_name(stdout, &table->names[line - 1]);
        }
        putchar('\n');
        text = feed + 1;
    }
}

int show(const struct request *request)
{
    const struct around comments = {"# with ", "\n", put_plain};
    struct table table;
    char text[YOLIZADWA_LONGEST_TEXT];
    int status = open_table(request, 0, stderr, &table);
    if (status == DONE) {
        uint64_t length = yolizadwa_to_text(table.file, table.len, (uint8_t *)text, sizeof text);
        put_changes(&comments, &table);
        print_lines(&table, text, text + length);
    }
    return status;
}
