/*
 * A camera with a shutter button: asks once whether every job is in time whenever the button is pressed, and then gives out the slots. Its
 * contact bounces: the second press comes too early, is not taken, and does no harm.
 *
 * Ends with 0 if the loop was run, and with 1 if not.
 */
#include <stdio.h>
#include <string.h>

#include "yolizadwa.h"

enum { SHUTTER = 3, SLOTS = 60 };

static const char table[] =
    "task 0 2 5 10    # lens\n"
    "task 5 1 2 10    # lamp\n"
    "task 0 4 20 20   # storing pictures\n"
    "button 3 10 40   # shutter\n";

/* Where a camera would see that a press began since the last slot; a contact that is held is one press. */
static uint32_t read_buttons(unsigned slot)
{
    return slot == 3 || slot == 4 || slot == 50 ? UINT32_C(1) << SHUTTER : 0;
}

static void print_slot(unsigned slot, uint32_t pressed, uint64_t result)
{
    if (yolizadwa_owner(result) == YOLIZADWA_TASKS) {
        printf("slot %u none", slot);
    } else {
        printf("slot %u task %u", slot, (unsigned)yolizadwa_owner(result));
    }
    if (pressed != 0) {
        printf(", pressed%s", yolizadwa_untaken(result) != 0 ? " too early" : "");
    }
    printf("\n");
}

/* Here every job takes its whole cost: none says that it is done before. */
static int run(const uint8_t *file, size_t len)
{
    struct yolizadwa_state state;
    uint64_t result = yolizadwa_press_start(file, len, (uint8_t *)&state, sizeof state);
    for (unsigned slot = 0; slot < SLOTS && !yolizadwa_refused(yolizadwa_owner(result)); slot++) {
        uint32_t pressed = read_buttons(slot);
        result = yolizadwa_press_step(file, len, (uint8_t *)&state, sizeof state, 0, pressed);
        print_slot(slot, pressed, result);
    }
    return yolizadwa_refused(yolizadwa_owner(result));
}

int main(void)
{
    uint8_t file[YOLIZADWA_LONGEST_FILE];
    uint64_t length = yolizadwa_from_text((const uint8_t *)table, strlen(table), file, sizeof file);
    if (yolizadwa_refused(length) || yolizadwa_distance(file, (size_t)length) != YOLIZADWA_DISTANCE_PASS) {
        printf("not run: the table does not pass\n");
        return 1;
    }
    return run(file, (size_t)length);
}
