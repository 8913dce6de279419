/* The library and the second implementation side by side: the same seventeen calls, with the same parameters. */
#ifndef LAYERS_H
#define LAYERS_H

#include "../include/shellwaltz.h"
#include "../second/second.h"

struct layer {
    uint32_t (*format)(uint32_t, uint32_t, uint32_t, uint32_t *, size_t, uint32_t *, uint32_t *);
    uint32_t (*check)(uint32_t, uint32_t, uint32_t, const uint32_t *, size_t, uint32_t *, uint32_t *);
    uint32_t (*report)(uint32_t, uint32_t, uint32_t, const uint32_t *, size_t, uint32_t *, uint32_t *, uint32_t *, uint32_t *, uint32_t *,
                       uint32_t *);
    uint32_t (*read)(uint32_t, uint32_t, uint32_t, const uint32_t *, size_t, uint32_t, uint32_t *, size_t, uint32_t *, uint32_t *);
    uint32_t (*write)(uint32_t, uint32_t, uint32_t, uint32_t *, size_t, uint32_t, const uint32_t *, size_t, uint32_t *, uint32_t *, uint32_t *,
                      uint32_t *);
    uint32_t (*release)(uint32_t, uint32_t, uint32_t, uint32_t *, size_t, uint32_t, uint32_t *, uint32_t *, uint32_t *, uint32_t *);
    uint32_t (*build_table)(uint32_t, uint32_t, uint32_t, const uint32_t *, size_t, uint16_t *, size_t, uint32_t *, uint32_t *);
    uint32_t (*read_with_table)(uint32_t, uint32_t, uint32_t, const uint32_t *, size_t, uint32_t, uint32_t *, size_t, const uint16_t *, size_t,
                                uint32_t *, uint32_t *);
    uint32_t (*write_with_table)(uint32_t, uint32_t, uint32_t, uint32_t *, size_t, uint32_t, const uint32_t *, size_t, uint16_t *, size_t,
                                 uint32_t *, uint32_t *, uint32_t *, uint32_t *);
    uint32_t (*release_with_table)(uint32_t, uint32_t, uint32_t, uint32_t *, size_t, uint32_t, uint16_t *, size_t, uint32_t *, uint32_t *,
                                   uint32_t *, uint32_t *);
    uint32_t (*write_step)(uint32_t, uint32_t, uint32_t, const uint32_t *, size_t, uint32_t, const uint32_t *, size_t, uint32_t, uint32_t *,
                           size_t *, uint32_t *, uint32_t *, uint32_t *);
    uint32_t (*release_step)(uint32_t, uint32_t, uint32_t, const uint32_t *, size_t, uint32_t, uint32_t, uint32_t *, size_t *, uint32_t *,
                             uint32_t *, uint32_t *);
    uint32_t (*write_first)(uint32_t, uint32_t, uint32_t, uint32_t *, size_t, uint32_t, const uint32_t *, size_t, uint32_t, uint32_t *,
                            uint32_t *, uint32_t *, uint32_t *);
    uint32_t (*release_first)(uint32_t, uint32_t, uint32_t, uint32_t *, size_t, uint32_t, uint32_t, uint32_t *, uint32_t *, uint32_t *,
                              uint32_t *);
    uint32_t (*repair)(uint32_t, uint32_t, uint32_t, uint32_t *, size_t, uint32_t *, uint32_t *, uint32_t *, uint32_t *);
    uint32_t (*repair_step)(uint32_t, uint32_t, uint32_t, const uint32_t *, size_t, uint32_t, uint32_t *, size_t *, uint32_t *, uint32_t *,
                            uint32_t *);
    uint32_t (*repair_first)(uint32_t, uint32_t, uint32_t, uint32_t *, size_t, uint32_t, uint32_t *, uint32_t *, uint32_t *, uint32_t *);
};

/* The second implementation gives the place of a step in 32 bits. */
static inline uint32_t second_write_step_at(uint32_t blocks, uint32_t sectors, uint32_t logical, const uint32_t *image, size_t image_words,
                                            uint32_t number, const uint32_t *buffer, size_t buffer_words, uint32_t step, uint32_t *kind,
                                            size_t *place, uint32_t *word, uint32_t *bad_block, uint32_t *bad_rule)
{
    uint32_t narrow = (uint32_t)*place;
    uint32_t answer = second_write_step(blocks, sectors, logical, image, image_words, number, buffer, buffer_words, step, kind, &narrow, word,
                                        bad_block, bad_rule);
    *place = narrow;
    return answer;
}

static inline uint32_t second_release_step_at(uint32_t blocks, uint32_t sectors, uint32_t logical, const uint32_t *image, size_t image_words,
                                              uint32_t number, uint32_t step, uint32_t *kind, size_t *place, uint32_t *word,
                                              uint32_t *bad_block, uint32_t *bad_rule)
{
    uint32_t narrow = (uint32_t)*place;
    uint32_t answer = second_release_step(blocks, sectors, logical, image, image_words, number, step, kind, &narrow, word, bad_block, bad_rule);
    *place = narrow;
    return answer;
}

static inline uint32_t second_repair_step_at(uint32_t blocks, uint32_t sectors, uint32_t logical, const uint32_t *image, size_t image_words,
                                             uint32_t step, uint32_t *kind, size_t *place, uint32_t *word, uint32_t *bad_block,
                                             uint32_t *bad_rule)
{
    uint32_t narrow = (uint32_t)*place;
    uint32_t answer = second_repair_step(blocks, sectors, logical, image, image_words, step, kind, &narrow, word, bad_block, bad_rule);
    *place = narrow;
    return answer;
}

static const struct layer library = {
    shellwaltz_format,           shellwaltz_check,
    shellwaltz_report,           shellwaltz_read,
    shellwaltz_write,            shellwaltz_release,
    shellwaltz_build_table,      shellwaltz_read_with_table,
    shellwaltz_write_with_table, shellwaltz_release_with_table,
    shellwaltz_write_step,       shellwaltz_release_step,
    shellwaltz_write_first,      shellwaltz_release_first,
    shellwaltz_repair,           shellwaltz_repair_step,
    shellwaltz_repair_first,
};
static const struct layer second = {
    second_format,           second_check,
    second_report,           second_read,
    second_write,            second_release,
    second_build_table,      second_read_with_table,
    second_write_with_table, second_release_with_table,
    second_write_step_at,    second_release_step_at,
    second_write_first,      second_release_first,
    second_repair,           second_repair_step_at,
    second_repair_first,
};

struct geometry {
    uint32_t blocks, sectors, logical;
};

static inline size_t words_of(struct geometry g)
{
    return SHELLWALTZ_IMAGE_WORDS(g.blocks, g.sectors);
}

#endif
