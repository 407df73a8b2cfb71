/* Any bytes as UTF-8, letter by letter. */
#include "command.h"

static int follows(uint8_t byte)
{
    return byte >= 0x80 && byte < 0xC0;
}

/* Tells how many bytes a letter has, by its first one, or 0 if none begins so. */
static unsigned length_by(uint8_t first)
{
    if (first < 0x80) {
        return 1;
    }
    if (first < 0xC2 || first > 0xF4) {
        return 0;
    }
    return first < 0xE0 ? 2 : first < 0xF0 ? 3 : 4;
}

static uint32_t code_of(const uint8_t *bytes, unsigned length)
{
    static const uint8_t masks[] = {0, 0x7F, 0x1F, 0x0F, 0x07};
    uint32_t code = bytes[0] & masks[length];
    for (unsigned at = 1; at < length; at++) {
        code = follows(bytes[at]) ? code << 6 | (bytes[at] & 0x3F) : UINT32_MAX >> 6;
    }
    return code;
}

/* There are no overlong forms, no surrogates and nothing above U+10FFFF. */
struct letter letter_at(const uint8_t *bytes, size_t len)
{
    static const uint32_t least[] = {0, 0, 0x80, 0x800, 0x10000};
    const struct letter none = {0, 0};
    unsigned length = len == 0 ? 0 : length_by(bytes[0]);
    if (length == 0 || length > len) {
        return none;
    }
    uint32_t code = code_of(bytes, length);
    if (code < least[length] || code > 0x10FFFF || (code >= 0xD800 && code < 0xE000)) {
        return none;
    }
    return (struct letter){length, code};
}

static int is_control(uint32_t code)
{
    return code < 0x20 || (code >= 0x7F && code < 0xA0) || code == 0xFFFE || code == 0xFFFF;
}

/* What Unicode calls ignorable, but for the selectors of a shape (U+FE00 to U+FE0F), and what breaks lines or marks notes. */
static const struct {
    uint32_t first, last;
} hidden[] = {
    {0xAD, 0xAD},     {0x34F, 0x34F},   {0x61C, 0x61C},   {0x115F, 0x1160}, {0x17B4, 0x17B5},   {0x180B, 0x180F},
    {0x200B, 0x200F}, {0x2028, 0x202E}, {0x2060, 0x206F}, {0x3164, 0x3164}, {0xFEFF, 0xFEFF},   {0xFFA0, 0xFFA0},
    {0xFFF0, 0xFFFB}, {0x1BCA0, 0x1BCA3}, {0x1D173, 0x1D17A}, {0xE0000, 0xE0FFF},
};

/* Some letters are not seen, or turn the direction of what follows: with them a name can look like another. */
int is_hidden(uint32_t code)
{
    for (size_t at = 0; at < sizeof hidden / sizeof hidden[0]; at++) {
        if (code >= hidden[at].first && code <= hidden[at].last) {
            return 1;
        }
    }
    return is_control(code);
}
