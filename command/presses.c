/* Presses of buttons: what --press tells, which of them the dispatcher took, and which came too early. */
#include <string.h>

#include "json.h"

/* Tells where the slot ends, or NULL if none stands there. */
static const char *read_slot(const char *digits, unsigned long *slot)
{
    const char *at = digits;
    *slot = 0;
    for (; *at >= '0' && *at <= '9'; at++) {
        *slot = *slot < MOST_SLOTS ? 10 * *slot + (unsigned long)(*at - '0') : MOST_SLOTS;
    }
    return at > digits && *slot < MOST_SLOTS && (*at == ',' || *at == '\0') ? at : NULL;
}

/* A slot that is told twice is one press. */
static void press_at(struct presses *presses, unsigned button, unsigned long slot, uint64_t deadline)
{
    uint32_t bit = UINT32_C(1) << button;
    presses->first = presses->count == 0 || slot < presses->first ? slot : presses->first;
    presses->count += !(presses->at[slot] & bit);
    presses->at[slot] |= bit;
    presses->due = slot + deadline > presses->due ? slot + deadline : presses->due;
}

/* Tells whether the slots are numbers with commas between. */
static int press_slots(struct presses *presses, unsigned button, const char *slots, uint64_t deadline)
{
    unsigned long slot;
    const char *end = read_slot(slots, &slot);
    while (end != NULL) {
        press_at(presses, button, slot, deadline);
        if (*end == '\0') {
            return 1;
        }
        end = read_slot(end + 1, &slot);
    }
    return 0;
}

/* BUTTON@SLOT,SLOT.., cut at the last @, since a name may have one. */
static int take_press(const struct table *table, const char *press, struct presses *presses)
{
    const char *sign = strrchr(press, '@');
    if (sign == NULL || sign == press) {
        return trouble("--press needs BUTTON@SLOT or BUTTON@SLOT,SLOT.., and this is not that: %s", press);
    }
    unsigned number = task_meant(table, press, (int)(sign - press));
    if (number == YOLIZADWA_TASKS) {
        return TROUBLE;
    }
    struct task task = task_at(table, number);
    if (!task.button) {
        return trouble("task %u is no button, and cannot be pressed", number);
    }
    if (!press_slots(presses, number, sign + 1, task.deadline)) {
        return trouble("--press needs slots from 0 to %d with commas between, and this is not that: %s", MOST_SLOTS - 1, sign + 1);
    }
    return DONE;
}

int take_presses(const struct request *request, const struct table *table, struct presses *presses)
{
    int status = DONE;
    for (unsigned at = 0; at < request->presses && status == DONE; at++) {
        status = take_press(table, request->press[at], presses);
    }
    if (status != DONE && request->json) {
        json_trouble(request, 0);
    }
    return status;
}

static void note_press(struct press_list *list, const struct course *course, unsigned number)
{
    uint64_t slot = course->slots - 1;
    if (course->task[number].button && course->came >> number & 1) {
        list->taken++;
    }
    if (!(course->untaken >> number & 1)) {
        return;
    }
    if (list->untaken < JOBS_SHOWN) {
        list->early[list->untaken] = (struct early_press){number, slot, slot + course->before.wait[number]};
    }
    list->untaken++;
}

void note_presses(struct press_list *list, const struct course *course)
{
    for (unsigned number = 0; course->has_buttons && number < course->tasks; number++) {
        note_press(list, course, number);
    }
}

static unsigned long listed(const struct press_list *list)
{
    return list->untaken < JOBS_SHOWN ? list->untaken : JOBS_SHOWN;
}

static void print_early(const struct press_list *list, const struct course *course)
{
    printf("  task  %7s  %7s%s\n", "slot", "again", name_heading(course->table));
    for (unsigned long at = 0; at < listed(list); at++) {
        const struct early_press *press = &list->early[at];
        printf("  %4u  %7" PRIu64 "  %7" PRIu64, press->task, press->slot, press->again);
        end_row(course->table, press->task, put_plain);
    }
    if (listed(list) < list->untaken) {
        printf("  and %lu more\n", list->untaken - listed(list));
    }
}

/* Presses behind the run are told and not looked at. */
static unsigned long behind(const struct press_list *list, const struct course *course)
{
    return (course->presses == NULL ? 0 : course->presses->count) - list->taken - list->untaken;
}

void print_presses(const struct press_list *list, const struct course *course)
{
    if (!course->has_buttons) {
        return;
    }
    if (course->presses == NULL || course->presses->count == 0) {
        printf("no button was pressed: --press BUTTON@SLOT presses one\n");
        return;
    }
    printf("presses taken: %lu; too early, and not taken: %lu", list->taken, list->untaken);
    if (behind(list, course) > 0) {
        printf("; after the run: %lu", behind(list, course));
    }
    putchar('\n');
    if (list->untaken > 0) {
        print_early(list, course);
    }
}

void json_presses(const struct press_list *list, const struct course *course)
{
    if (!course->has_buttons) {
        return;
    }
    json_open("presses", '{');
    json_number("taken", list->taken);
    json_open("too_early", '[');
    for (unsigned long at = 0; at < listed(list); at++) {
        json_open(NULL, '{');
        json_number_and_name(course->table, list->early[at].task);
        json_number("slot", list->early[at].slot);
        json_number("again", list->early[at].again);
        json_close('}');
    }
    json_close(']');
    json_number("too_early_left", list->untaken - listed(list));
    json_number("after", behind(list, course));
    json_close('}');
}
