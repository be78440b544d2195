/* A command's shape in its ring, and its header faults (1 to 4). */
#include "parts.h"

/* The command table: which opcodes there are, and the payload bit of each. */
static const struct {
    uint32_t opcode, payload;
} table[] = {
    {WRITE_MEM, FLAG_PAYLOAD}, {READ_MEM, 0}, {FILL_RECT, 0}, {BLIT, 0},
    {DISPATCH_1D, 0}, {BARRIER, 0}, {COPY_BUFFER, 0}, {SET_FB, 0}
};

static void read_header(const uint8_t *header, struct ind_command *command)
{
    command->opcode = header[0];
    command->flags = header[1];
    command->rdst = header[2];
    command->len = header[3];
    command->arg0 = ind_get(header + 4, WORD);
    command->arg1 = ind_get(header + 8, WORD);
    command->arg2 = ind_get(header + 12, WORD);
    command->target = 0;
    command->payload = NULL;
}

/* The size goes by the flags alone, whatever else is wrong with the header.
 * The cursor must not be above ring_len. 1 if the command is whole. */
int ind_command_whole(const uint8_t *ring, size_t ring_len, uint32_t cursor,
                      struct ind_command *command)
{
    size_t left = ring_len - cursor;

    if (left < IND_HEADER_BYTES)
        return 0;
    read_header(ring + cursor, command);
    uint32_t waits = (command->flags & FLAG_WAIT) != 0;
    uint32_t pays = (command->flags & FLAG_PAYLOAD) != 0;
    uint32_t payload_at = IND_HEADER_BYTES + (waits ? WORD : 0);
    command->size = payload_at + (pays ? WORD * command->len : 0);
    if (left < command->size)
        return 0;
    if (waits)
        command->target = ind_get(ring + cursor + IND_HEADER_BYTES, WORD);
    if (pays)
        command->payload = ring + cursor + payload_at;
    return 1;
}

uint32_t ind_header_fault(const struct ind_command *command)
{
    size_t row = 0;

    while (row < sizeof table / sizeof table[0]
           && table[row].opcode != command->opcode)
        row++;
    if (row == sizeof table / sizeof table[0])
        return IND_NO_OPCODE;
    if ((command->flags & FLAGS_RESERVED) != 0)
        return IND_RESERVED_FLAG;
    if ((command->flags & FLAG_PAYLOAD) != table[row].payload)
        return IND_PAYLOAD_BIT;
    if ((command->flags & (FLAG_EMIT | FLAG_WAIT)) != 0
        && command->rdst >= IND_SLOTS)
        return IND_NO_SLOT;
    return IND_DONE;
}
