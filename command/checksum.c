/* CRC-32, lowest bit first. */
#include "page.h"

static const uint32_t polynomial = 0xEDB88320;

static uint32_t divided(uint32_t rest)
{
    for (int bit = 0; bit < 8; bit++) {
        rest = rest & 1 ? rest >> 1 ^ polynomial : rest >> 1;
    }
    return rest;
}

uint32_t checksum_of(const uint8_t *bytes, size_t len)
{
    uint32_t rest = UINT32_MAX;
    for (size_t at = 0; at < len; at++) {
        rest = divided((rest ^ bytes[at]) & 0xFF) ^ rest >> 8;
    }
    return ~rest;
}
