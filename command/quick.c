/* The word quick: the library's answer with all offsets 0, and what it means for the table. */
#include "json.h"

const char *quick_words(uint64_t answer)
{
    if (answer == YOLIZADWA_QUICK_PASS) {
        return "quick pass\n\npass: every job is in time, with these offsets and with any others\n";
    }
    return "quick none\n\nno answer: with all offsets 0 a job is late, or more slots are asked for than there are; judge looks at the\n"
           "offsets too\n";
}

int quick(const struct request *request)
{
    struct table table;
    int status = open_periodic(request, 0, stdout, "the quick test", &table);
    if (status != DONE) {
        return status;
    }
    begin_progress();
    uint64_t answer = yolizadwa_quick(table.file, table.len);
    end_progress();
    status = answer == YOLIZADWA_QUICK_PASS ? DONE : UNDECIDED;
    if (request->json) {
        json_begin(request, 0, status);
        json_changes(&table);
        json_text("quick", answer == YOLIZADWA_QUICK_PASS ? "pass" : "none");
        json_end();
    } else {
        say_what_if(&table);
        fputs(quick_words(answer), stdout);
    }
    return status;
}
