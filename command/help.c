/* What --help and help WORD print: the overview, and the page of a text. pages.c has those of the words. */
#include <string.h>

#include "words.h"

/* Where the overview says what a word is for. */
enum { SUMS_UP_AT = 45 };

static const char overview[] =
    "yolizadwa judges tables of periodic tasks and of buttons, and shows who has each\n"
    "slot.\n"
    "\n";

static const char overview_end[] =
    "  yolizadwa help WORD                        about a word, or about text\n"
    "  yolizadwa --help, -h\n"
    "  yolizadwa --version, version\n"
    "\n"
    "A FILE is a table in plain text, a table file, or - for standard input.\n"
    "A text:\n"
    "\n"
    "  budget 1000          # slots that the judge may look at\n"
    "  #    offset cost deadline period\n"
    "  task 8 5 7 15        # lens\n"
    "  task 0 2 2 5         # lamp\n"
    "\n"
    "A button is a line such as: button 3 10 40, which are its cost, its deadline and\n"
    "the least spacing of its presses; distance is the test for it, and --press\n"
    "shutter@3,60 presses it. A comment behind a task or button is its name. A table\n"
    "file has none: --names TEXT lends those of a text to any word but make. What if:\n"
    "--set lens.cost=9 or --set 0.cost=9 changes a number of the table, and --budget\n"
    "5000 the budget, for any word. For scripts --json prints an answer as one object\n"
    "of JSON, for all but draw, page, show and make.\n"
    "\n"
    "Ends with 0: passes, good, or done; 1: cannot be done; 2: refused; 3: late,\n"
    "overload, or another log; 4: undecided, no answer, no easing, or a faulty log;\n"
    "130: stopped by Ctrl-C. A test that takes long says on a terminal how far it is.\n";

static const char page_text[] =
    "A table in plain text: a line for the budget, or none, then a line for each task\n"
    "or button, of which there are 1 to 32 in all, numbered from 0.\n"
    "\n"
    "  # the March lens\n"
    "  budget 1000          # slots that the judge may look at\n"
    "  task 8 5 7 15        # lens\n"
    "  task 0 2 2 5         # lamp\n"
    "  button 1 9 30        # shutter\n"
    "\n"
    "Task 0 has offset 8, cost 5, deadline 7 and period 15: its jobs are released at\n"
    "8, 23, 38 and so on, need 5 slots, and are due 7 slots after their release. Task\n"
    "2 is a button with cost 1, deadline 9 and spacing 30: a job comes when it is\n"
    "pressed, if ever, and not again within 30 slots. # begins a comment, and behind\n"
    "a task or button that is its name. Blanks or tabs part words.\n"
    "\n"
    "  period     1 to 60,000; their least common multiple at most 1,000,000,000,000\n"
    "  spacing    as a period, and counted with them\n"
    "  deadline   1 to the period or spacing\n"
    "  cost       1 to the deadline\n"
    "  offset     0 to 60,000; a button has none\n"
    "  budget     from 1; the horizon is enough; 2,000,000,060,000 is for every table;\n"
    "             without a budget the judge looks as far as it must\n";

static void print_row(FILE *to, const struct word *word)
{
    int column = fprintf(to, "  yolizadwa %s", word->form);
    if (column > SUMS_UP_AT - 2) {
        fputc('\n', to);
        column = 0;
    }
    fprintf(to, "%*s%s\n", SUMS_UP_AT - column, "", word->sums_up);
    if (word->sums_up_more != NULL) {
        fprintf(to, "%*s%s\n", SUMS_UP_AT, "", word->sums_up_more);
    }
}

static void print_overview(FILE *to)
{
    fputs(overview, to);
    for (const struct word *word = word_after(NULL); word != NULL; word = word_after(word)) {
        print_row(to, word);
    }
    fputs(overview_end, to);
}

static void print_word(FILE *to, const struct word *word)
{
    fprintf(to, "%s\n\n%s", use_of(word, "\n   "), word->page);
}

int print_page(FILE *to, const char *name)
{
    if (name == NULL || strcmp(name, "help") == 0) {
        print_overview(to);
        return 1;
    }
    if (strcmp(name, "text") == 0) {
        fputs(page_text, to);
        return 1;
    }
    const struct word *word = word_named(name);
    if (word != NULL) {
        print_word(to, word);
    }
    return word != NULL;
}
