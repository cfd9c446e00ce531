/* A host of two older libraries, with their declarations: of one whose states have room for 16 tasks and 32 links, and of one whose states have no
 * times. The calls would write past what is lent here, so none of them may be found. */
#include <stddef.h>
#include <stdint.h>
#include <stdio.h>

uint8_t parnusild_event(uint8_t kind, uint32_t which, uint32_t value, uint32_t *number, size_t tasks, size_t links,
                        uint8_t *control, uint32_t *values);
uint8_t parnusild_fresh(size_t table_tasks, size_t table_links, const uint32_t *table_defaults, const uint8_t *table_writer,
                        const uint8_t *table_reader, const uint8_t *table_kind, const uint32_t *table_start_value,
                        size_t *tasks, size_t *links, uint8_t *control, uint32_t *values);
uint8_t parnusild_replay(const uint8_t *bytes, size_t size, uint32_t *numbers, size_t room, size_t *place, size_t *counts,
                         size_t *tasks, size_t *links, uint8_t *control, uint32_t *values);
size_t parnusild_rest(const uint8_t *bytes, size_t size, size_t place);
uint8_t parnusild_write(const uint32_t *defaults, size_t tasks, const uint32_t *links, size_t links_size, const uint32_t *events,
                        size_t events_size, uint8_t *bytes, size_t room, size_t *place);

uint8_t parnusild_event_32_96(uint8_t kind, uint32_t which, uint32_t value, uint32_t *number, size_t tasks, size_t links,
                              uint8_t *control, uint32_t *values);
uint8_t parnusild_fresh_32_96(size_t table_tasks, size_t table_links, const uint32_t *table_defaults, const uint8_t *table_writer,
                              const uint8_t *table_reader, const uint8_t *table_kind, const uint32_t *table_start_value,
                              size_t *tasks, size_t *links, uint8_t *control, uint32_t *values);
uint8_t parnusild_replay_32_96(const uint8_t *bytes, size_t size, uint32_t *numbers, size_t room, size_t *place, size_t *counts,
                               size_t *tasks, size_t *links, uint8_t *control, uint32_t *values);
size_t parnusild_rest_32_96(const uint8_t *bytes, size_t size, size_t place);
uint8_t parnusild_write_32_96(uint32_t kind, const uint32_t *defaults, size_t tasks, const uint32_t *links, size_t links_size,
                              const uint32_t *events, size_t events_size, uint8_t *bytes, size_t room, size_t *place);

/* a saved state, and a table of one task, with the second library's room */
static size_t tasks, links;
static uint8_t control[608];
static uint32_t values[448];
static const uint32_t defaults[32], start_value[96];
static const uint8_t writer[96], reader[96], kind[96];

int main(void)
{
    uint8_t bytes[9];
    uint32_t number = 0;
    size_t place, counts[4];
    printf("write %u\n", parnusild_write(defaults, 1, &number, 0, &number, 0, bytes, sizeof bytes, &place));
    printf("replay %u\n", parnusild_replay(bytes, sizeof bytes, &number, 1, &place, counts, &tasks, &links, control, values));
    printf("rest %zu\n", parnusild_rest(bytes, sizeof bytes, place));
    printf("fresh %u\n", parnusild_fresh(1, 0, defaults, writer, reader, kind, start_value, &tasks, &links, control, values));
    printf("arrival %u\n", parnusild_event(1, 1, 0, &number, tasks, links, control, values));
    printf("write %u\n", parnusild_write_32_96(254, defaults, 1, &number, 0, &number, 0, bytes, sizeof bytes, &place));
    printf("replay %u\n", parnusild_replay_32_96(bytes, sizeof bytes, &number, 1, &place, counts, &tasks, &links, control, values));
    printf("rest %zu\n", parnusild_rest_32_96(bytes, sizeof bytes, place));
    printf("fresh %u\n", parnusild_fresh_32_96(1, 0, defaults, writer, reader, kind, start_value, &tasks, &links, control, values));
    printf("arrival %u\n", parnusild_event_32_96(1, 1, 0, &number, tasks, links, control, values));
    return 0;
}
