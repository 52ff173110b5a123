#include "record.h"

#include "procedure.h"

size_t record_bytes(const uint16_t *items, size_t count, uint8_t *bytes)
{
    for (size_t i = 0; i < count; i++)
        put_number(bytes + SEQ_ITEM_BYTES * i, items[i]);
    return SEQ_ITEM_BYTES * count;
}

void put_item(uint8_t **at, unsigned node, unsigned mark)
{
    put_number(*at, node + SEQ_MARK_UNIT * mark);
    *at += SEQ_ITEM_BYTES;
}
