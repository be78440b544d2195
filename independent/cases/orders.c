#include "cases/orders.h"

struct sides sides_of(const struct ind_command *command,
                      const struct ind_frame *frame)
{
    struct sides sides = {
        command->arg0, command->arg1, WORD * command->len, {command->len, 1}
    };

    if (command->opcode == BLIT) {
        sides.stride = frame->stride;
        sides.size = ind_rectangle_size(command);
    }
    return sides;
}

int spans_meet(const struct sides *sides)
{
    uint32_t bytes = sides->stride * (sides->size.height - 1)
        + WORD * sides->size.width;

    return sides->dst < sides->src ? sides->src - sides->dst < bytes
                                   : sides->dst - sides->src < bytes;
}

static void copy_row(const struct ind_window *window, uint32_t dst,
                     uint32_t src, uint32_t words, int fall)
{
    for (uint32_t i = 0; i < words; i++) {
        uint32_t at = WORD * (fall ? words - 1 - i : i);
        ind_store(window, dst + at, WORD, ind_load(window, src + at, WORD));
    }
}

void copy_in_order(const struct ind_window *window, const struct sides *sides,
                   struct order order)
{
    uint32_t rows = sides->size.height;

    for (uint32_t i = 0; i < rows; i++) {
        uint32_t at = sides->stride * (order.rows_fall ? rows - 1 - i : i);
        copy_row(window, sides->dst + at, sides->src + at, sides->size.width,
                 order.words_fall);
    }
}
