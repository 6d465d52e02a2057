/* Volumes are read twice, as the archive does: once to check, and again to store, so that a refused call has stored nothing; or, of two recordings,
 * to compare. For the duty and for the soundness they are read once. */
#include "plain_volume.h"

#include <string.h>

#define MOST_ENTRIES 2000

static const uint32_t least[4] = { 0, 0, 0, 1 }, most[4] = { 1440, 100000, 10000, 8 };

static struct plain_answer refused(uint64_t refusal)
{
    return (struct plain_answer){ refusal, 0 };
}

static struct plain_answer accepted(uint64_t value)
{
    return (struct plain_answer){ 0, value };
}

/* How far a volume has been read. */
struct place {
    const uint8_t *at, *end;
};

/* Reads a number of at most three groups that is to be in a range; returns 0 or the refusal number. */
static uint64_t read_number(struct place *p, uint32_t low, uint32_t high, uint32_t *value)
{
    uint32_t n = 0;
    for (int shift = 0; shift < 21; shift += 7) {
        if (p->at == p->end)
            return 16;
        uint8_t b = *p->at++;
        n |= (uint32_t)(b & 127) << shift;
        if (b < 128) {
            if (b == 0 && shift != 0)
                return 14;
            if (n < low || n > high)
                return 15;
            *value = n;
            return 0;
        }
    }
    return 14;
}

static uint64_t read_entry(struct place *p, uint32_t entry[4])
{
    for (int i = 0; i < 4; i++) {
        uint64_t refusal = read_number(p, least[i], most[i], &entry[i]);
        if (refusal != 0)
            return refusal;
    }
    return 0;
}

/* Reads a volume to its end; first is then the place of its first entry. */
static uint64_t read_all(struct place *first, uint32_t *count)
{
    uint32_t entry[4];
    uint64_t refusal = read_number(first, 0, MOST_ENTRIES, count);
    if (refusal != 0)
        return refusal;
    struct place p = *first;
    for (uint32_t k = 0; k < *count; k++) {
        refusal = read_entry(&p, entry);
        if (refusal != 0)
            return refusal;
    }
    return p.at == p.end ? 0 : 16;
}

struct plain_answer plain_read_volume(const uint8_t *volume, size_t volume_bytes, uint32_t *entries, size_t numbers)
{
    struct place first = { volume, volume + volume_bytes };
    uint32_t count;
    uint64_t refusal = read_all(&first, &count);
    if (refusal != 0)
        return refused(refusal);
    if (numbers < 4 * (size_t)count)
        return refused(8);
    for (uint32_t k = 0; k < count; k++)
        read_entry(&first, entries + 4 * k);
    return accepted(count);
}

struct plain_answer plain_duty(const uint16_t *rates, const uint8_t *volume, size_t volume_bytes)
{
    struct place p = { volume, volume + volume_bytes };
    uint32_t count, entry[4];
    uint64_t cents = 0, refusal = read_number(&p, 0, MOST_ENTRIES, &count);
    if (refusal != 0)
        return refused(refusal);
    for (uint32_t k = 0; k < count; k++) {
        refusal = read_entry(&p, entry);
        if (refusal != 0)
            return refused(refusal);
        cents += (uint64_t)entry[1] * entry[2] * rates[entry[3] - 1] / 10000;
    }
    if (p.at != p.end)
        return refused(16);
    return accepted(cents);
}

int64_t plain_compare(const uint8_t *blender, size_t blender_bytes, const uint8_t *gauge, size_t gauge_bytes)
{
    struct place b = { blender, blender + blender_bytes }, g = { gauge, gauge + gauge_bytes };
    uint32_t blenders, gauges, one[4], other[4];
    if (read_all(&b, &blenders) != 0 || read_all(&g, &gauges) != 0)
        return 0;
    for (uint32_t k = 0; k < blenders && k < gauges; k++) {
        int64_t from = b.at - blender, there = g.at - gauge;
        read_entry(&b, one);
        read_entry(&g, other);
        if (memcmp(one, other, sizeof one) != 0)
            return other[2] < one[2] ? -there : from;
    }
    return blenders < gauges ? -(g.at - gauge) : b.at - blender;
}

enum soundness { SOUND, CUT, HOPELESS };

/* Goes through a number that is to be in a range, up to the first byte after which no bytes bring it there. */
static enum soundness pass_number(struct place *p, uint32_t low, uint32_t high, uint32_t *value)
{
    uint32_t n = 0;
    for (int shift = 0;; shift += 7) {
        if (p->at == p->end)
            return CUT;
        uint8_t b = *p->at++;
        n += (uint32_t)(b & 127) << shift;
        if (b < 128) {
            *value = n;
            return (b == 0 && shift != 0) || n < low || n > high ? HOPELESS : SOUND;
        }
        if (n + ((uint32_t)128 << shift) > high)
            return HOPELESS;
    }
}

static enum soundness pass_volume(struct place *p)
{
    uint32_t count, value;
    enum soundness found = pass_number(p, 0, MOST_ENTRIES, &count);
    if (found != SOUND)
        return found;
    for (uint32_t k = 0; k < count; k++) {
        for (int i = 0; i < 4; i++) {
            found = pass_number(p, least[i], most[i], &value);
            if (found != SOUND)
                return found;
        }
    }
    if (p->at == p->end)
        return SOUND;
    p->at++;
    return HOPELESS;
}

int64_t plain_soundness(const uint8_t *volume, size_t volume_bytes)
{
    struct place p = { volume, volume + volume_bytes };
    switch (pass_volume(&p)) {
    case SOUND: return 0;
    case CUT: return -1;
    default: return p.at - volume;
    }
}

static size_t count_groups(uint32_t n)
{
    size_t groups = 1;
    for (; n >= 128; n >>= 7)
        groups++;
    return groups;
}

static uint8_t *write_number(uint8_t *at, uint32_t n)
{
    for (; n >= 128; n >>= 7)
        *at++ = (uint8_t)(n | 128);
    *at++ = (uint8_t)n;
    return at;
}

struct plain_answer plain_write_volume(const uint32_t *entries, size_t numbers, uint8_t *lent, size_t lent_bytes)
{
    if (numbers % 4 != 0)
        return refused(16);
    size_t count = numbers / 4;
    if (count > MOST_ENTRIES)
        return refused(15);
    size_t length = count_groups((uint32_t)count);
    for (size_t i = 0; i < numbers; i++) {
        if (entries[i] < least[i % 4] || entries[i] > most[i % 4])
            return refused(15);
        length += count_groups(entries[i]);
    }
    if (lent_bytes < length)
        return refused(8);
    uint8_t *at = write_number(lent, (uint32_t)count);
    for (size_t i = 0; i < numbers; i++)
        at = write_number(at, entries[i]);
    return accepted(length);
}
