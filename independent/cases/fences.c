#include "cases/fences.h"

#include "cases/editions.h"
#include "cases/lines.h"
#include "device/image.h"
#include "device/parts.h"

enum { EDITIONS = 2, HALF_APARTS = 4, FIRSTS = 4 };

/* Waits are counted by spans of how much the slot is past the target, up to one
 * of `aparts`; starting numbers by spans up to one of these. */
static const uint32_t firsts[FIRSTS] = {
    0, HALF_RANGE - 1, UINT32_MAX - 1, UINT32_MAX
};

static struct {
    uint64_t met[EDITIONS][APARTS], unmet[EDITIONS][APARTS];
    uint64_t met_below, unmet_above;
    uint64_t served[EDITIONS], fence[EDITIONS], silent[EDITIONS];
    uint64_t round[IND_OUTCOMES];
    uint64_t odd_served, odd_idle, odd_refused;
    uint64_t first[FIRSTS], refused[2];
} count;

static int is_second(const struct ind_device *device)
{
    return device->edition == IND_EDITION_2;
}

static void count_wait(const struct ind_device *device,
                       const struct ind_command *command, int met)
{
    uint32_t number = device->slots[command->rdst];
    uint32_t span = span_of(aparts, number - command->target);
    int second = is_second(device);

    if (met)
        count.met[second][span]++;
    else
        count.unmet[second][span]++;
    count.met_below += second && met && number < command->target;
    count.unmet_above += second && !met && number >= command->target;
}

/* Of the rings that were looked at: a wait is met exactly if its ring is
 * served. */
static void count_waits(const struct call *before,
                        const struct ind_device *device,
                        const struct ind_report *report)
{
    int served = 0;

    for (uint32_t i = 0; i < IND_RINGS && !served; i++) {
        uint32_t number = (device->marker + i) % IND_RINGS;
        const struct piece *ring = &before->pieces[PIECE_RING + number];
        struct ind_command command;
        served = report->status == IND_SERVED && number == report->ring;
        if (ind_command_whole(ring->bytes, ring->length,
                              device->rings[number].cursor, &command)
            && ind_header_fault(&command) == IND_DONE
            && (command.flags & FLAG_WAIT) != 0)
            count_wait(device, &command, served);
    }
}

static void count_fence(const struct call *before,
                        const struct ind_device *device,
                        const struct ind_report *report)
{
    const struct piece *ring = &before->pieces[PIECE_RING + report->ring];
    uint32_t cursor = device->rings[report->ring].cursor;
    int second = is_second(device);

    count.served[second]++;
    if (report->emitted != 0) {
        count.fence[second]++;
        count.round[report->outcome] += report->fence == 0;
    } else if ((ring->bytes[cursor + 1] & FLAG_EMIT) != 0) {
        count.silent[second]++;
    }
}

void fences_turn(const struct call *before, const struct call *after)
{
    struct ind_device device;
    struct ind_report report;

    ind_image_decode(before->pieces[PIECE_DEVICE].bytes, &device);
    ind_report_decode(after->pieces[PIECE_REPORT].bytes, &report);
    int odd = device.edition != IND_EDITION_1 && !is_second(&device);
    count.odd_served += odd && report.status == IND_SERVED;
    count.odd_idle += odd && report.status == IND_IDLE;
    count.odd_refused += odd && report.status >= IND_REFUSED_MEMORY;
    if (report.status >= IND_REFUSED_MEMORY)
        return;
    count_waits(before, &device, &report);
    if (report.status == IND_SERVED)
        count_fence(before, &device, &report);
}

void fences_making(const struct call *after)
{
    uint32_t answer = call_answer(after), first = call_first(after);

    if (answer == 0)
        count.first[span_of(firsts, first)]++;
    else if (first != 0)
        count.refused[answer - IND_REFUSED_MEMORY]++;
}

static int wait_lines(FILE *out)
{
    int missing = 0;

    title(out, "waits that were met in edition 1, by slot minus target");
    missing += span_lines(out, "past by", 0, aparts, count.met[0], APARTS);
    title(out, "waits that were not met in edition 1, by slot minus target");
    missing += span_lines(out, "past by", 1, aparts + 1, count.unmet[0] + 1,
                          APARTS - 1);
    title(out, "waits that were met in edition 2, by slot minus target");
    missing += span_lines(out, "past by", 0, aparts, count.met[1],
                          HALF_APARTS);
    missing += line(out, "the target above the slot", count.met_below);
    title(out, "waits that were not met in edition 2, by slot minus target");
    missing += span_lines(out, "past by", HALF_RANGE, aparts + HALF_APARTS,
                          count.unmet[1] + HALF_APARTS, HALF_APARTS);
    missing += line(out, "the target at most the slot", count.unmet_above);
    return missing;
}

int fences_lines(FILE *out)
{
    int missing = wait_lines(out);

    title(out, "turns that served a command");
    missing += lines(out, "edition %u", IND_EDITION_1, count.served, EDITIONS);
    title(out, "calls in which a fence is emitted");
    missing += lines(out, "edition %u", IND_EDITION_1, count.fence, EDITIONS);
    title(out, "calls in which a fence is asked for and not emitted");
    missing += lines(out, "edition %u", IND_EDITION_1, count.silent, EDITIONS);
    title(out, "calls in which a slot goes round to 0");
    missing += line(out, "outcome 0", count.round[IND_DONE]);
    missing += lines(out, "outcome %u", IND_NOT_FOURS,
                     count.round + IND_NOT_FOURS,
                     IND_OUTCOMES - IND_NOT_FOURS);
    title(out, "turns with an edition that is neither 1 nor 2");
    missing += line(out, "served", count.odd_served);
    missing += line(out, "idle", count.odd_idle);
    missing += line(out, "refused", count.odd_refused);
    title(out, "devices made of edition 2, by the starting number");
    missing += span_lines(out, "from", 0, firsts, count.first, FIRSTS);
    title(out, "makings of edition 2, refused, from another number than 0");
    missing += lines(out, "refused %u", IND_REFUSED_MEMORY, count.refused, 2);
    return missing;
}
