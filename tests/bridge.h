/* What the bridge is handed before the file and the buffer of a request. */
#ifndef BRIDGE_H
#define BRIDGE_H

#include <stdint.h>

struct head {
    uint64_t number;
    uint32_t call;
    uint32_t measure;
    uint32_t file_len;
    uint32_t buffer_len;
};

#endif
