/* The program that is killed. It starts up on the part, holds every sector against what its own log says, and then writes and releases at random, until
 * it is stopped. What it did not expect it says, and halts. */
#include "../examples/driver.h"
#include "cfi.h"
#include "log.h"
#include "serial.h"

/* A block of the format is an erase block of the part. */
enum { BLOCKS = CFI_BLOCKS, SECTORS = CFI_BLOCK_BYTES / (4 * SHELLWALTZ_SECTOR_WORDS) };
static uint32_t mirror[SHELLWALTZ_IMAGE_WORDS(BLOCKS, SECTORS)];
const struct shellwaltz_part part = SHELLWALTZ_PART(BLOCKS, SECTORS, LOGICAL, mirror);

/* Where the log is handed back, with a 0 behind it; emulated/run says the same. */
static const char *const LOG = (const char *)0x1000000;
static struct log known;

/* ---- The commands of the part, each with its mark in the log. */

uint32_t read_word(size_t place)
{
    return cfi_read(place);
}

int program_word(size_t place, uint32_t word)
{
    put_char('.');
    return cfi_program(place, word);
}

int erase_block(size_t block)
{
    put_char('#');
    return cfi_erase(block);
}

/* ---- What is not expected: the last line of the log says it. */

static void say(const char *text, uint32_t number)
{
    put_text(text);
    put_number(number);
}

static void begin_failure(const char *what)
{
    put_text("\nFAILED: ");
    put_text(what);
}

static _Noreturn void end_failure(void)
{
    put_char('\n');
    halt();
}

static void expect(int holds, const char *otherwise)
{
    if (holds)
        return;
    begin_failure(otherwise);
    end_failure();
}

static void expect_accepted(const char *call, struct shellwaltz_result r)
{
    if (r.answer == SHELLWALTZ_OK)
        return;
    begin_failure(call);
    say(" is answered by ", r.answer);
    say(", block ", r.bad_block);
    say(", rule ", r.bad_rule);
    end_failure();
}

/* ---- What a sector holds: its number, the call that wrote it, and words that follow from both. */

static const uint32_t NOTHING = 0, MIXED = 0xFFFFFFFFu; /* in place of a call */

static uint32_t stirred(uint32_t a, uint32_t b, uint32_t c)
{
    uint32_t x = a * 0x9E3779B1u + b * 0x85EBCA77u + c * 0xC2B2AE3Du;
    x = (x ^ x >> 15) * 0x2C1B3C6Du;
    x = (x ^ x >> 12) * 0x297A2D39u;
    return x ^ x >> 15;
}

static uint32_t word_of(uint32_t number, uint32_t call, uint32_t i)
{
    return i == 0 ? number : i == 1 ? call : stirred(number, call, i);
}

/* The call that wrote what the sector holds. */
static uint32_t writer_of(uint32_t number)
{
    uint32_t sector[SHELLWALTZ_SECTOR_WORDS];
    struct shellwaltz_result r = shellwaltz_part_read(&part, number, sector);
    if (r.answer == SHELLWALTZ_UNMAPPED)
        return NOTHING;
    expect_accepted("a read", r);
    for (uint32_t i = 0; i < SHELLWALTZ_SECTOR_WORDS; i++)
        if (sector[i] != word_of(number, sector[1], i))
            return MIXED;
    return sector[1];
}

static void verify(uint32_t number)
{
    uint32_t call = writer_of(number), before = known.held[number];
    int was_cut = known.is_cut && known.number == number;
    known.held[number] = call;
    if (call == before || (was_cut && call == known.after))
        return;
    begin_failure(call == NOTHING ? "lost" : call == MIXED ? "mixed" : "other contents");
    say(": sector ", number);
    say(", which by the log was written by call ", before);
    if (was_cut)
        say(" or ", known.after);
    end_failure();
}

/* ---- The course of a life. */

static void put_held(void)
{
    say("held ", known.last_call);
    for (uint32_t number = 0; number < LOGICAL; number++)
        say(" ", known.held[number]);
    put_text(" done\n");
}

static void start_again(void)
{
    struct shellwaltz_result r;
    uint32_t steps;
    put_text("start ");
    expect(!start_up(&r, &steps), "the part failed");
    expect_accepted("a repair", r);
    put_text(" done\n");
}

static void format_first(void)
{
    put_text("format ");
    expect(!format_part(), "the part failed");
    put_text(" done\n");
}

/* The next write does so if no block is open and one is blank: then the free slots are those of this one. */
static int will_reclaim(void)
{
    return shellwaltz_part_report(&part).free_slots == SECTORS - 1;
}

static void make_call(void)
{
    uint32_t buffer[SHELLWALTZ_SECTOR_WORDS], call = ++known.last_call, number = stirred(known.seed, call, 0) % LOGICAL, steps;
    int stores = known.held[number] == NOTHING || stirred(known.seed, call, 1) % 8;
    struct request request = {stores ? WRITE : RELEASE, number, buffer};
    struct shellwaltz_result r;
    for (uint32_t i = 0; i < SHELLWALTZ_SECTOR_WORDS; i++)
        buffer[i] = word_of(number, call, i);
    say(stores ? "write " : "release ", number);
    say(" ", call);
    put_text(stores && will_reclaim() ? " reclaim " : " ");
    expect(!carry_out(request, &r, &steps), "the part failed");
    expect_accepted(stores ? "a write" : "a release", r);
    put_text(" done\n");
    known.held[number] = stores ? call : NOTHING;
    expect(steps == r.words + r.erasures, "the steps are not the words and erasures that the call reports");
    expect(first_difference() == part.image_words, "part and mirror differ");
}

/* start.S comes here. */
_Noreturn void run(void)
{
    known = read_log(LOG);
    put_char('\n'); /* the last line may have been cut */
    expect(cfi_is_there(), "there is no such part");
    if (known.lines == 1)
        format_first();
    else
        start_again();
    expect(first_difference() == part.image_words, "part and mirror differ");
    for (uint32_t number = 0; number < LOGICAL; number++)
        verify(number);
    put_held();
    for (;;)
        make_call();
}
