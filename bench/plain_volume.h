/* The shift volume, the duty on it under a table of eight rates, its soundness, and the comparison of two, in plain C, from requests (d), (e), (j)
 * and (k) of document 02. */
#ifndef PLAIN_VOLUME_H
#define PLAIN_VOLUME_H

#include <stddef.h>
#include <stdint.h>

/* The refusal number, 0 where the call is accepted, and then the length, the count or the cents; a refused call changes nothing. */
struct plain_answer {
    uint64_t refusal;
    uint64_t value;
};

struct plain_answer plain_write_volume(const uint32_t *entries, size_t numbers, uint8_t *lent, size_t lent_bytes);
struct plain_answer plain_read_volume(const uint8_t *volume, size_t volume_bytes, uint32_t *entries, size_t numbers);
struct plain_answer plain_duty(const uint16_t *rates, const uint8_t *volume, size_t volume_bytes);
/* 0 where the string is a volume, -1 where it is cut, else the length of its shortest beginning that no bytes complete. */
int64_t plain_soundness(const uint8_t *volume, size_t volume_bytes);
/* The byte from which the blender's recording is handed back, or minus that byte of the gauge's; 0 where the pair is refused. */
int64_t plain_compare(const uint8_t *blender, size_t blender_bytes, const uint8_t *gauge, size_t gauge_bytes);

#endif
