/* The word draw: a window of the run as a drawing. */
#include "drawing/picture.h"

/* Tells the verdict's status. */
static int judge_picture(struct picture *picture, const struct table *table, const struct presses *presses)
{
    struct yolizadwa_numbers numbers;
    struct certain certain;
    if (button_count(table) == 0) {
        answer_table(table, &numbers);
        take_verdict(picture, table, &numbers);
        return verdict_status(&numbers);
    }
    uint64_t answer = ask_distance(table);
    ask_certain(table, answer, &certain);
    word_certain(table, answer, &certain, &picture->verdict);
    take_answer(picture, table, presses);
    return certain_status(table, answer, &certain);
}

static int write_drawing(const struct request *request)
{
    static struct picture picture;
    static struct presses presses;
    struct table table;
    int status = take_window(&picture, request);
    if (status == DONE) {
        status = open_table(request, 0, stderr, &table);
    }
    if (status == DONE) {
        status = take_presses(request, &table, &presses);
    }
    if (status != DONE) {
        return status;
    }
    status = judge_picture(&picture, &table, &presses);
    trace_run(&picture, &table, &presses, request->early);
    picture.name = shown_name(request->files[0]);
    picture.changes = changes_told(&table);
    printf("<?xml version=\"1.0\" encoding=\"UTF-8\"?>\n");
    put_drawing(&picture);
    close_table(&table);
    return status;
}

int draw(const struct request *request)
{
    return into_file(request, write_drawing);
}
