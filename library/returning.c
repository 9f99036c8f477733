/* Sets that were deaf, or heard something else, and come back: the loop of terminal.h, tried. Prints of each case
 * with which frame, counted from the trouble's end, the set opened anew and with which it told a whole message
 * again, and returns 0; or prints the first check that fails, and returns 1. In every case nothing is told whole
 * that is not as it was sent. */
#include <stdbool.h>
#include <stdio.h>
#include <stdlib.h>
#include <string.h>

#include "terminal.h"
#include "tob.h"

/* Of any 9 slots in a row, any 2 may be lost, or any number within 4 slots in a row; a message comes out 5 slots
 * later. */
enum { WINDOW = 9, DELAY = 5, BURST = 4, SCATTERED = 2, LANES = 2 };
static const uint8_t settings[TOB_SETTINGS_LEN] = {WINDOW, DELAY, BURST, SCATTERED, LANES};

static void check(bool holds, const char *what, int line)
{
    if (!holds) {
        printf("library/returning.c:%d: not so: %s\n", line, what);
        exit(1);
    }
}
#define CHECK(what) check(what, #what, __LINE__)

/* ---- broadcasts */

/* A meeting's sender: the slot that it sends next, and the frame of the slot before. */
struct broadcast {
    uint8_t meeting;
    uint32_t slot;
    uint8_t state[TOB_STATE_LEN], rows[TOB_SENDER_MAX], frame[TOB_FRAME_MAX];
};

/* Message `slot` of a meeting: none is like another's. */
static void fill(uint8_t *message, uint8_t meeting, uint32_t slot)
{
    for (size_t i = 0; i < tob_message_len(settings); i++)
        message[i] = (uint8_t)(i < 4 ? slot >> 8 * i : 16u * meeting + i);
}

static void begin(struct broadcast *b, uint8_t meeting)
{
    b->meeting = meeting;
    b->slot = 0;
    CHECK(tob_open_sender(settings, b->state, sizeof b->state, b->rows, tob_sender_len(settings)) == TOB_ACCEPTED);
}

/* The frame of the next slot. */
static const uint8_t *send(struct broadcast *b)
{
    uint8_t message[TOB_MESSAGE_MAX];
    fill(message, b->meeting, b->slot++);
    CHECK(tob_send(b->state, sizeof b->state, b->rows, tob_sender_len(settings), message, tob_message_len(settings),
                   b->frame, tob_frame_len(settings))
          == TOB_ACCEPTED);
    return b->frame;
}

/* Sends until a slot is next, with nobody listening. */
static void send_until(struct broadcast *b, uint32_t slot)
{
    while (b->slot < slot)
        send(b);
}

/* ---- the set, and what it tells */

static struct terminal set;

/* Whose messages may be told and from which number on; how many frames have come; with which of them the set opened
 * last and told a whole message first; how often it opened and how many messages were whole; and how many of the
 * other meeting are still to be told, from before the set comes back. */
static struct {
    uint8_t meeting;
    int64_t from;
    unsigned frames, opened, whole, openings, wholes, others;
} seen;

/* From now on frames are counted. */
static void watch(uint8_t meeting, int64_t from)
{
    memset(&seen, 0, sizeof seen);
    seen.meeting = meeting;
    seen.from = from;
}

static void opened(struct terminal *terminal, uint32_t slot)
{
    (void)terminal;
    (void)slot;
    seen.opened = seen.frames;
    seen.openings++;
}

static void dropped(struct terminal *terminal, uint32_t cause)
{
    (void)terminal;
    CHECK(TOB_REFUSED(cause));
}

static void told(struct terminal *terminal, uint32_t slot, bool was_heard, uint32_t reply)
{
    uint8_t sent[TOB_MESSAGE_MAX];
    int64_t number = (int64_t)slot - DELAY;
    (void)was_heard;
    if (reply != TOB_WHOLE)
        return;
    if (number < seen.from && seen.others-- > 0)
        return;
    fill(sent, seen.meeting, (uint32_t)number);
    CHECK(number >= seen.from);
    CHECK(memcmp(terminal->message, sent, tob_message_len(settings)) == 0);
    seen.whole = seen.wholes == 0 ? seen.frames : seen.whole;
    seen.wholes++;
}

static void hear(const uint8_t *frame)
{
    seen.frames++;
    receive(&set, frame, tob_frame_len(settings));
}

/* A frame whose slot is damaged. */
static void hear_damaged(const uint8_t *frame, uint32_t change)
{
    uint8_t damaged[TOB_FRAME_MAX];
    memcpy(damaged, frame, tob_frame_len(settings));
    for (int i = 0; i < 4; i++)
        damaged[10 + i] ^= (uint8_t)(change >> (24 - 8 * i));
    hear(damaged);
}

static void hear_slots(struct broadcast *b, unsigned slots)
{
    for (; slots > 0; slots--)
        hear(send(b));
}

static void switch_on(void)
{
    memset(&set, 0, sizeof set);
    memcpy(set.settings, settings, sizeof settings);
}

/* Twenty slots are enough to come back: at the last of them everything is told, and on time. */
static void comes_back(const char *what, struct broadcast *b)
{
    uint32_t due;
    hear_slots(b, 20);
    CHECK(seen.whole > 0);
    CHECK(tob_slot_due(set.state, sizeof set.state, &due) == TOB_ACCEPTED && due == b->slot);
    unsigned before = seen.wholes;
    hear_slots(b, 100);
    CHECK(seen.wholes == before + 100);
    printf("%s: opened with frame %u, tells with frame %u\n", what, seen.opened, seen.whole);
}

/* ---- the cases */

static struct broadcast strong, rare;

/* A set that has heard the first slots of a meeting. */
static void has_heard(uint32_t slots)
{
    switch_on();
    begin(&strong, 1);
    watch(1, 0);
    hear_slots(&strong, slots);
    CHECK(seen.wholes == slots - DELAY && seen.openings == 1);
}

static void try_silence(const char *what, uint32_t slots)
{
    has_heard(100);
    send_until(&strong, 100 + slots);
    watch(1, 100 - DELAY);
    comes_back(what, &strong);
}

/* After a window of silent slots a set goes on with the first frame, and after one more it opens anew. */
static void try_limit(const char *what)
{
    has_heard(100);
    send_until(&strong, strong.slot + WINDOW);
    watch(1, 100 - DELAY);
    hear_slots(&strong, 20);
    CHECK(seen.openings == 0 && seen.whole == 1);
    send_until(&strong, strong.slot + WINDOW + 1);
    watch(1, 100);
    comes_back(what, &strong);
    CHECK(seen.openings == 1);
}

/* After the silence 2 slots of 9 are lost, which is fair, and never are 6 heard in a row. */
static void try_silence_and_losses(const char *what)
{
    has_heard(100);
    send_until(&strong, 5100);
    watch(1, 5100);
    for (unsigned i = 0; i < 180; i++) {
        const uint8_t *frame = send(&strong);
        if (i % 9 != 0 && i % 9 != 4)
            hear(frame);
    }
    CHECK(seen.openings == 1 && seen.wholes >= 180 - 2 * WINDOW);
    printf("%s: opened with frame %u, tells with frame %u\n", what, seen.opened, seen.whole);
}

/* After the silence every frame is followed by a repetition of that of three slots before. */
static void try_repetitions(const char *what)
{
    static uint8_t kept[4][TOB_FRAME_MAX];
    has_heard(100);
    send_until(&strong, 5100);
    watch(1, 5100);
    for (unsigned i = 0; i < 100; i++) {
        memcpy(kept[i % 4], send(&strong), tob_frame_len(settings));
        hear(kept[i % 4]);
        if (i >= 3)
            hear(kept[(i + 1) % 4]);
    }
    CHECK(seen.openings == 1 && seen.wholes >= 100 - 2 * DELAY - BURST);
    printf("%s: opened with frame %u, tells with frame %u\n", what, seen.opened, seen.whole);
}

/* The first frame is of this slot, and its slot is damaged. */
static void try_damaged(const char *what, uint32_t slot, uint32_t change)
{
    switch_on();
    begin(&strong, 1);
    send_until(&strong, slot);
    watch(1, slot);
    hear_damaged(send(&strong), change);
    comes_back(what, &strong);
}

static void try_beginning_again(const char *what, uint32_t slots)
{
    has_heard(slots);
    begin(&strong, 2);
    watch(2, 0);
    comes_back(what, &strong);
}

/* What was saved when a slot was due in meeting 1 is restored before the frame of a slot of this meeting. Until then
 * the timer calls, and nothing is told. */
static void try_restored(const char *what, uint32_t saved, uint8_t meeting, uint32_t slot)
{
    static uint8_t state[TOB_STATE_LEN], rows[TOB_RECEIVER_MAX];
    has_heard(saved);
    memcpy(state, set.state, sizeof state);
    memcpy(rows, set.rows, sizeof rows);
    for (size_t row = 0; row < tob_receiver_len(settings); row += 1 + tob_frame_len(settings) - TOB_HEADER_LEN)
        CHECK(rows[row] == 1);
    switch_on();
    restore(&set, state, rows);
    begin(&strong, meeting);
    send_until(&strong, slot);
    watch(meeting, (int64_t)slot - DELAY);
    for (int i = 0; i < 10; i++)
        pass(&set);
    CHECK(seen.wholes == 0 && memcmp(set.state, state, sizeof state) == 0);
    comes_back(what, &strong);
}

/* In one slot of so many the rare one is heard in place of the strong one, whose messages are all whole: it never
 * wins. Where it was heard first, and again within the next B + 2 slots, one message of it is told. */
static void try_interleaved(const char *what, uint32_t rare_slot, unsigned every, bool rare_first)
{
    switch_on();
    begin(&strong, 1);
    begin(&rare, 2);
    send_until(&strong, 1000);
    send_until(&rare, rare_slot);
    watch(1, 1000 - DELAY);
    seen.others = rare_first && every < BURST + 2;
    for (unsigned i = rare_first ? 0 : 1; i <= 400; i++) {
        const uint8_t *of_strong = send(&strong), *of_rare = send(&rare);
        hear(i % every == 0 ? of_rare : of_strong);
    }
    CHECK(seen.openings == (rare_first ? 2 : 1));
    CHECK(seen.wholes >= 400 - 4 * DELAY);
    printf("%s: opened with frame %u, tells with frame %u\n", what, seen.opened, seen.whole);
}

/* Slots 0 to 999, with a burst of losses before every window; in every slot there is a frame of the other one too. */
static void try_fair_losses(const char *what)
{
    switch_on();
    begin(&strong, 1);
    begin(&rare, 2);
    send_until(&rare, 300);
    watch(1, 0);
    for (unsigned slot = 0; slot < 1000; slot++) {
        const uint8_t *of_strong = send(&strong), *of_rare = send(&rare);
        if (slot % (WINDOW + BURST) >= BURST || slot < BURST)
            hear(of_strong);
        hear(of_rare);
    }
    CHECK(seen.openings == 1 && seen.wholes == 1000 - DELAY);
    printf("%s: never opened anew\n", what);
}

/* Between any two frames come so many strays of these settings: now far ahead, now a little more than a window, now
 * behind. */
static void try_strays(const char *what, uint32_t silent, unsigned strays)
{
    static const uint32_t changes[] = {1u << 30, 1u << 11, 1u << 8, 1u << 5, 3u << 12};
    has_heard(100);
    send_until(&strong, 100 + silent);
    watch(1, silent == 0 ? 0 : 100);
    for (unsigned i = 0; i < 200; i++) {
        const uint8_t *frame = send(&strong);
        for (unsigned stray = 0; stray < strays; stray++)
            hear_damaged(frame, changes[(i + stray) % 5]);
        hear(frame);
    }
    CHECK(seen.openings == (silent == 0 ? 0 : 1));
    CHECK(seen.wholes >= (silent == 0 ? 200 : 200 - 2 * DELAY - BURST));
    printf("%s: opened with frame %u, tells with frame %u\n", what, seen.opened, seen.whole);
}

/* Frames that change nothing, however many come: above the last slot, near which the set is, and two in one. */
static void try_none(const char *what)
{
    static const uint8_t last[] = {0xEE, 0x6B, 0x27, 0xFE}, above[] = {0xEE, 0x6B, 0x28, 0x00};
    static uint8_t frames[2 * TOB_FRAME_MAX];
    static struct terminal before;
    size_t len = tob_frame_len(settings);
    has_heard(100);
    memcpy(set.state + 9, last, sizeof last);
    before = set;
    for (uint8_t i = 0; i < 20; i++) {
        memcpy(frames, send(&strong), len);
        memcpy(frames + 10, above, sizeof above);
        frames[13] = i;
        receive(&set, frames, len);
        memcpy(frames, strong.frame, len);
        memcpy(frames + len, send(&strong), len);
        receive(&set, frames, 2 * len);
    }
    CHECK(memcmp(&set, &before, sizeof set) == 0);
    printf("%s: nothing changed\n", what);
}

/* A state whose bytes from `place` on are others. */
static void try_state(const char *what, size_t place, const uint8_t *bytes, size_t len)
{
    has_heard(100);
    memcpy(set.state + place, bytes, len);
    watch(1, 100);
    comes_back(what, &strong);
}

int main(void)
{
    static const uint8_t past[] = {0xEE, 0x6B, 0x28, 0x00}, none[TOB_STATE_LEN];
    try_silence("5,000 silent slots", 5000);
    try_silence("1,000,000 silent slots", 1000000);
    try_limit("a window of silent slots, and then one more");
    try_silence_and_losses("5,000 silent slots, and losses then");
    try_repetitions("5,000 silent slots, and repetitions then");
    try_damaged("a first slot damaged far ahead", 300, 1u << 30);
    try_damaged("a first slot damaged far behind", 70000, 1u << 16);
    try_damaged("a first slot damaged a little behind", 5000, 1u << 9);
    try_beginning_again("the sender begins again at 0", 300);
    try_beginning_again("the sender begins again at 0 soon", 20);
    try_restored("saved 200 slots ago", 100, 1, 300);
    try_restored("saved a meeting ago, 100 slots behind", 1000, 2, 1100);
    try_restored("saved a meeting ago, 60 slots ahead", 1000, 2, 940);
    try_restored("saved a meeting ago, 49,000 slots behind", 1000, 2, 50000);
    try_restored("saved just before", 100, 1, 100);
    try_interleaved("a rare broadcast ahead", 3000, 8, false);
    try_interleaved("a rare broadcast ahead, heard first", 3000, 8, true);
    try_interleaved("a rare broadcast behind, heard first", 500, 8, true);
    try_interleaved("a less rare one, heard first", 500, 5, true);
    try_fair_losses("another broadcast in every slot, under fair losses");
    try_strays("strays every other frame", 0, 1);
    try_strays("strays every other frame after 5,000 silent slots", 5000, 1);
    try_strays("three strays for every frame after 5,000 silent slots", 5000, 3);
    try_state("a slot due past the last", 9, past, sizeof past);
    try_state("a state that is none", 0, none, sizeof none);
    try_none("frames above the last slot, and two in one");
    return 0;
}
