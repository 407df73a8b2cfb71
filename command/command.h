/* The command `yolizadwa`: what its files share. It is a client of the library and decides nothing that the library decides. */
#ifndef COMMAND_H
#define COMMAND_H

#include <stddef.h>
#include <inttypes.h>
#include <stdio.h>

#include "names.h"
#include "whatif.h"
#include "yolizadwa.h"

#define PROGRAM "yolizadwa 0.2"

/* docs/COMMAND.md promises these numbers. */
enum status { DONE = 0, TROUBLE = 1, REFUSED = 2, LATE = 3, UNDECIDED = 4, STOPPED = 130 };

/* No text begins with a lower byte: the lowest that a text may begin with is a tab. */
enum { FIRST_OF_A_TEXT = 9 };

enum { MOST_INPUT = 1 << 24, MOST_SLOTS = 1000000, LEAST_USUAL = 35, JOBS_SHOWN = 100, MOST_SETTINGS = 200 };

/* What one call of the command asks for; its word says which of these count. */
struct request {
    const char *word;
    const char **files;
    unsigned file_count;
    const char *names; /* a text that lends its names, or NULL */
    const char *set[MOST_SETTINGS];
    unsigned settings;
    const char *press[MOST_SETTINGS];
    unsigned presses;
    int budget_told;
    uint64_t budget;
    const char *log; /* where the log of a run goes, or NULL */
    const char *output; /* where a drawing or a page goes, or NULL for standard output */
    int changes_new; /* of two tables a what-if changes the second alone */
    int all;
    int early;
    int plainly;
    int json;
    int dump;
    int mend;
    unsigned long slots; /* 0: the usual number */
    int from_told;
    unsigned long from, to; /* to 0: not told */
    int one_task;           /* 0: every task */
    uint32_t task;
    const char *task_name; /* NULL: it is the number above */
};

/* The bytes of a FILE as they were found, text or table file. */
struct input {
    const char *given; /* as the command was called */
    uint8_t *bytes;
    size_t len;
};

/* Which file of the request a table comes from, and where its refusals are said. */
struct source {
    const struct request *request;
    unsigned which;
    FILE *refusals;
    struct input input;
};

/* A table file that the library has not refused. */
struct table {
    uint8_t file[YOLIZADWA_LONGEST_FILE];
    size_t len;
    int was_text;
    uint8_t *bytes; /* of the text that the names stand in, or NULL */
    struct name names[YOLIZADWA_TASKS];
    const struct table *was; /* as it stands in the file, if a what-if changed it, or NULL */
};

/* A button has its least spacing for a period, and no offset, which is 0 here. */
struct task {
    int button;
    uint64_t offset, cost, deadline, period;
};

/* What the library answers of a table without buttons, as numbers and, for a word that prints it, as text. */
struct report {
    struct yolizadwa_numbers numbers;
    uint64_t length;                       /* of the text */
    char text[YOLIZADWA_REPORT_BYTES + 1]; /* ended by a zero byte, which the library does not write */
};

/* Digits alone. Tells whether the number is in its range. */
int read_number(const char *digits, uint64_t least, uint64_t most, uint64_t *number);

/* Files: each says what went wrong on standard error and then tells TROUBLE. */
void keep_standard_files_apart(void);
int trouble(const char *format, ...) __attribute__((format(printf, 1, 2)));
int cannot(const char *what, const char *name); /* for the reason that errno has */
const char *last_trouble(void);
const char *shown_name(const char *name); /* of a file, safe on a terminal, until the next one is shown or trouble is said */
int read_input(const char *name, struct input *input);
void skip_mark(struct input *input);
int begins_otherwise(const char *name, uint8_t low, uint8_t high); /* whether a file is there whose first byte is none of these */
int write_all(int number, const uint8_t *bytes, size_t len);       /* tells whether all of it could be written */
int write_output(const char *name, const uint8_t *bytes, size_t len);
int write_log(const char *name, const uint8_t *bytes, size_t len);

/* Does what the word does, and what it prints goes to the file that the request names, if any: whole, or not at all. */
int into_file(const struct request *request, int (*act)(const struct request *request));

/* Tables. */
int is_table_file(const struct input *input);
uint64_t table_of(const struct input *input, struct table *table);
int open_table(const struct request *request, unsigned which, FILE *refusals, struct table *table);
int open_periodic(const struct request *request, unsigned which, FILE *refusals, const char *what, struct table *table);
void close_table(struct table *table); /* its names end with it */
uint64_t budget_of(const struct table *table);
void replace_budget(struct table *table, uint64_t budget);
void replace_cost(struct table *table, unsigned number, uint64_t cost);
void keep_first(struct table *table, unsigned tasks);
unsigned task_count(const struct table *table);
unsigned button_count(const struct table *table);
struct task task_at(const struct table *table, unsigned number);

/* The table with each button as a task: pressed at 0 and every spacing after. */
void pressed_often(const struct table *table, struct table *tasks);

/* Refusals in words, and for a text the line. */
int say_refusal(const struct source *source, uint64_t result);
int say_button(const struct source *source, const char *what, uint64_t result);
int say_refused_change(const struct source *source, const struct what_if *what_if, uint64_t result);
int say_no_task(const struct request *request, const struct table *table, uint64_t result);
size_t refused_line(const struct input *text, uint64_t result);
unsigned long line_number(const struct input *text, size_t begin);
void show_line(FILE *to, const struct input *text, size_t begin);
struct name not_a_number(const struct input *text, size_t begin);

/* Answers take as long as a check, and each makes the quick test. Of a table without buttons none is refused. */
uint64_t answer_once(const struct table *table, struct yolizadwa_numbers *numbers);
void write_report(const struct table *table, int plainly, struct report *report);
int report_passes(const struct report *report);
uint64_t horizon_of(const struct table *table);
unsigned long usual_slots(const struct table *table, unsigned long most);

/* Asks with budgets that grow up to the table's own, and tells its progress. */
void answer_table(const struct table *table, struct yolizadwa_numbers *numbers);

/* The same, with the text. To ask no more than that takes, of a text that passes the numbers are those that do not depend on the budget,
 * and the verdict. */
void check_table(const struct table *table, int plainly, struct report *report);

/* What a verdict means, and its status. More is empty, or foretells an undecided verdict. */
struct sentence {
    char text[256], more[64];
};
void word_verdict(const struct table *table, const struct yolizadwa_numbers *numbers, struct sentence *sentence);
void foretell(struct sentence *sentence, const char *answer);
int verdict_status(const struct yolizadwa_numbers *numbers);
const char *verdict_name(uint32_t verdict);

/* A row of a list of jobs. The caller names the last column of numbers; times are that many columns wide. The tasks' names follow, if there
 * are any, put as text of a terminal or of XML. */
struct job {
    unsigned task;
    uint64_t number, release, due, amount;
};
struct jobs {
    const struct table *table;
    void (*put)(const char *text);
    int columns;
};
int columns_for(uint64_t largest);
void put_plain(const char *text);
void print_jobs_heading(const struct jobs *jobs, const char *amount);
void print_job(const struct jobs *jobs, const struct job *job);
void end_row(const struct table *table, unsigned task, void (*put)(const char *text));
const char *name_heading(const struct table *table);

/* Lists the jobs of a late interval, and nothing for another verdict. The hint follows the number of jobs not listed. */
struct excess_list {
    int all;
    const char *hint;
    void (*put)(const char *text);
};
uint64_t jobs_within(const struct task *task, uint64_t start, uint64_t end); /* released at start or later, and due by end */
void list_excess(const struct table *table, const struct yolizadwa_numbers *numbers, const struct excess_list *list);

/* Asking may take long. The words are the answer itself, an empty line, and what it means. */
const char *quick_words(uint64_t answer);
uint64_t ask_distance(const struct table *table);
const char *distance_words(const struct table *table, uint64_t answer); /* the caller adds to none, without buttons, who tells */
int distance_status(uint64_t answer);

/* Where that is none and the table has buttons: the exact test of one way to press them, within the table's budget. If that is late, no way
 * to give out the slots keeps every deadline, which is proved. */
struct certain {
    int is_asked;
    struct table tasks; /* each button as a task */
    struct yolizadwa_numbers numbers;
};
void ask_certain(const struct table *table, uint64_t answer, struct certain *certain);
int is_late_for_certain(const struct certain *certain);
int certain_status(const struct table *table, uint64_t answer, const struct certain *certain);
const char *certain_words(const struct table *table, uint64_t answer, const struct certain *certain); /* until it is asked again */
void word_certain(const struct table *table, uint64_t answer, const struct certain *certain, struct sentence *sentence);
uint64_t ask_largest(const struct table *table, uint32_t first, unsigned rows, uint64_t *told);

void tell_tasks(unsigned done, unsigned all, double seconds); /* as progress */

/* What mends a table that does not pass: of each task the largest cost of it alone with which the table passes, or 0 if none does. Tells 0
 * if that was not looked for, since it takes long. */
int find_remedies(const struct table *table, const struct yolizadwa_numbers *numbers, int however_long, uint64_t *costs);
void say_remedies(const struct table *table, const struct yolizadwa_numbers *numbers, int however_long);
void say_load(const struct yolizadwa_numbers *numbers);
const char *percent(uint64_t part, uint64_t whole); /* until it is asked again */

/* The words of the command. */
int judge(const struct request *request);
int quick(const struct request *request);
int distance(const struct request *request);
int eased(const struct request *request);
int largest(const struct request *request);
int make(const struct request *request);
int show(const struct request *request);
int run(const struct request *request);
int judge_log(const struct request *request);
int draw(const struct request *request);
int page(const struct request *request);

/* From then on Ctrl-C ends the command, with what is known of its progress. */
void stop_when_interrupted(void);

/* Call begin and end around what may take long. In between tell how far it is, in words for now and for when it is stopped, and how many
 * seconds are left; 0: nobody knows. */
void begin_progress(void);
void tell_progress(const char *now, const char *stopped, double seconds_left);
void end_progress(void);
double seconds_now(void);

#endif
