/* The word make: the table file of a text. */
#include "command.h"

int make(const struct request *request)
{
    struct table table;
    int status = open_table(request, 0, stderr, &table);
    if (status == DONE && !table.was_text) {
        return trouble("%s is a table file already; its text is what show prints", request->files[0]);
    }
    return status != DONE ? status : write_output(request->files[1], table.file, table.len);
}
