/* A meter's settings in sector 7 of a small image: formats, writes, reads back and prints; and what a log says of a damaged part. Built by
 * tests/c-programs against libshellwaltz_c.a, and compiled as C++ too; what it must print is tests/settings.expected. */
#include <stdio.h>

#include "shellwaltz.h"

enum { BLOCKS = 4, SECTORS = 8, LOGICAL = 16, SETTINGS = 7 };

/* The mirror of the part. A driver loads it at the start, and carries each call out on the part as well: examples/driver.h. */
static uint32_t image[SHELLWALTZ_IMAGE_WORDS(BLOCKS, SECTORS)];
/* Where each stored sector is, so that no call has to search for it. */
static uint16_t table[LOGICAL];
static const struct shellwaltz_part meter = SHELLWALTZ_PART_WITH_TABLE(BLOCKS, SECTORS, LOGICAL, image, table);

static void show(const char *what, struct shellwaltz_result r)
{
    printf("%s: %s\n", what, shellwaltz_meaning(r.answer));
    if (r.answer == SHELLWALTZ_MALFORMED)
        printf("block %u, rule %u: %s\n", (unsigned)r.bad_block, (unsigned)r.bad_rule, shellwaltz_rule_meaning(r.bad_rule));
}

int main(void)
{
    uint32_t sector[SHELLWALTZ_SECTOR_WORDS] = {0};

    show("format", shellwaltz_part_format(&meter));

    /* After a format, and at each start; from then on the calls keep the table right. */
    struct shellwaltz_result built = shellwaltz_part_build_table(&meter);
    if (built.answer != SHELLWALTZ_OK)
        show("build_table", built);

    /* Nothing is stored under the number yet: the refusal tells, and the buffer keeps its words. */
    show("read", shellwaltz_part_read(&meter, SETTINGS, sector));

    for (uint32_t tariff = 1; tariff <= 40; tariff++) {
        sector[0] = 0x4D455452;
        sector[1] = tariff;
        struct shellwaltz_result wrote = shellwaltz_part_write(&meter, SETTINGS, sector);
        if (wrote.answer != SHELLWALTZ_OK || wrote.erasures != 0) {
            show("write", wrote);
            printf("tariff %u: %u words programmed, %u block erased\n", (unsigned)tariff, (unsigned)wrote.words, (unsigned)wrote.erasures);
        }
    }

    sector[1] = 0;
    show("read", shellwaltz_part_read(&meter, SETTINGS, sector));
    printf("tariff %u\n", (unsigned)sector[1]);

    struct shellwaltz_totals totals = shellwaltz_part_report(&meter);
    printf("report: %s\n", shellwaltz_meaning(totals.answer));
    printf("%u stored, %u free, %u dead, %u erased\n", (unsigned)totals.mapped, (unsigned)totals.free_slots, (unsigned)totals.dead,
           (unsigned)totals.erase_sum);

    show("release", shellwaltz_part_release(&meter, SETTINGS));
    show("read", shellwaltz_part_read(&meter, SETTINGS, sector));

    /* A bit of block 2's erase count flips in the mirror: every call but a format refuses, and says where and why. */
    image[2 * SECTORS * SHELLWALTZ_SECTOR_WORDS] |= 0x80000000u;
    show("check", shellwaltz_part_check(&meter));
    show("write", shellwaltz_part_write(&meter, SETTINGS, sector));
    return 0;
}
