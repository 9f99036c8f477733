/* Tries tob.h beside the archive: every constant, every call, every reply for what the header says of it, and that a
 * refused call changes nothing. What is expected stands here in numbers and bytes, so that a header that has them wrong
 * is found. For C11 and C++11. Prints nothing and returns 0, or prints the first check that fails and returns 1. */
#include <assert.h>
#include <stdbool.h>
#include <stdio.h>
#include <stdlib.h>
#include <string.h>

#include "tob.h"

static void check(bool holds, const char *what, int line)
{
    if (!holds) {
        printf("library/test.c:%d: not so: %s\n", line, what);
        exit(1);
    }
}
#define CHECK(what) check(what, #what, __LINE__)

/* ---- what the header says by itself */

#define IS(constant, number) static_assert(constant == number, #constant)
IS(TOB_ACCEPTED, 0);
IS(TOB_BAD_SETTINGS, 1);
IS(TOB_BAD_LENGTH, 2);
IS(TOB_PAST_LAST_SLOT, 3);
IS(TOB_OTHER_MARK, 4);
IS(TOB_OTHER_SETTINGS, 5);
IS(TOB_OTHER_SLOT, 6);
IS(TOB_LATE_OPENING, 7);
IS(TOB_OUT_OF_REACH, 8);
IS(TOB_FALLING_SLOTS, 9);
IS(TOB_UNLIKE_FRAMES, 10);
IS(TOB_NONE_YET, 16);
IS(TOB_WHOLE, 17);
IS(TOB_LOST, 18);
IS(TOB_CLASH, 19);
IS(TOB_SETTINGS_LEN, 5);
IS(TOB_STATE_LEN, 20);
IS(TOB_HEADER_LEN, 14);
IS(TOB_MESSAGE_MAX, 960);
IS(TOB_FRAME_MAX, 1038);
IS(TOB_SENDER_MAX, 14400);
IS(TOB_RECEIVER_MAX, 30750);
IS(TOB_RECORDING_MAX, 65536);
IS(TOB_LAST_SLOT, 3999999999);
IS(TOB_VERSION, 100);

/* The calls once more, as the archive has them: the compiler refuses a header that declares one otherwise. */
#ifdef __cplusplus
extern "C" {
#endif
uint32_t tob_version(void);
size_t tob_state_len(void);
size_t tob_message_len(const uint8_t[5]);
size_t tob_frame_len(const uint8_t[5]);
size_t tob_sender_len(const uint8_t[5]);
size_t tob_receiver_len(const uint8_t[5]);
uint32_t tob_open_sender(const uint8_t[5], uint8_t *, size_t, uint8_t *, size_t);
uint32_t tob_open_receiver(const uint8_t[5], uint8_t *, size_t, uint8_t *, size_t);
uint32_t tob_open_receiver_at(const uint8_t[5], uint32_t, uint8_t *, size_t, uint8_t *, size_t);
uint32_t tob_send(uint8_t *, size_t, uint8_t *, size_t, const uint8_t *, size_t, uint8_t *, size_t);
uint32_t tob_heard(uint8_t *, size_t, uint8_t *, size_t, const uint8_t *, size_t, uint8_t *, size_t);
uint32_t tob_lost(uint8_t *, size_t, uint8_t *, size_t, uint8_t *, size_t);
uint32_t tob_look_up(const uint8_t *, size_t, const uint8_t *, size_t, int64_t, uint8_t *, size_t);
uint32_t tob_slot_due(const uint8_t *, size_t, uint32_t *);
uint32_t tob_frame_slot(const uint8_t *, size_t, uint32_t *);
uint32_t tob_pair_cause(const uint8_t[5], const uint8_t *, size_t, const uint8_t *, size_t);
#ifdef __cplusplus
}
#endif

/* The names of the replies 0 to 10 and 16 to 19; any other number is unknown. */
static const char *const causes[] = {"accepted",     "bad settings",   "bad length",   "past last slot",
                                     "other mark",   "other settings", "other slot",   "late opening",
                                     "out of reach", "falling slots",  "unlike frames"};
static const char *const told[] = {"none yet", "whole", "lost", "clash"};

static void try_names(void)
{
    for (uint32_t reply = 0; reply <= 40; reply++) {
        const char *name = reply <= 10 ? causes[reply] : 16 <= reply && reply <= 19 ? told[reply - 16] : "unknown";
        CHECK(strcmp(tob_reply_name(reply), name) == 0);
        CHECK(TOB_REFUSED(reply) == (1 <= reply && reply <= 15));
    }
    CHECK(strcmp(tob_reply_name(UINT32_MAX), "unknown") == 0 && !TOB_REFUSED(UINT32_MAX));
    uint32_t once = 15;
    CHECK(TOB_REFUSED(once++) && once == 16);
    CHECK(strcmp(TOB_VERSION_STRING, "1.0") == 0);
    CHECK(tob_version() == TOB_VERSION);
}

/* ---- lengths */

/* Settings, and their message, frame, sender's rows and receiver's rows: 0 for those that are not accepted. */
static const struct {
    uint8_t settings[TOB_SETTINGS_LEN];
    size_t message, frame, sender, receiver;
} lengths[] = {
    {{4, 3, 2, 2, 2}, 4, 22, 12, 45},
    {{9, 5, 4, 2, 2}, 8, 30, 56, 153},
    {{3, 9, 2, 1, 1}, 2, 18, 6, 20}, /* a window below the delay */
    {{2, 1, 1, 1, 1}, 1, 16, 1, 6},
    {{16, 15, 1, 1, 64}, 960, 1038, 14400, 30750},
    {{255, 8, 8, 1, 64}, 512, 1038, 7680, 16400},
    {{0, 0, 0, 0, 0}, 0, 0, 0, 0},
    {{4, 3, 2, 0, 2}, 0, 0, 0, 0},   /* no scattered losses */
    {{4, 3, 2, 3, 2}, 0, 0, 0, 0},   /* more of them than a burst has */
    {{4, 3, 4, 2, 2}, 0, 0, 0, 0},   /* a burst above the delay */
    {{3, 9, 3, 1, 1}, 0, 0, 0, 0},   /* a burst above the window's delay */
    {{16, 15, 2, 1, 1}, 0, 0, 0, 0}, /* 17 symbols */
    {{4, 3, 2, 2, 0}, 0, 0, 0, 0},   /* no lane */
    {{4, 3, 2, 2, 65}, 0, 0, 0, 0},  /* 65 lanes */
};

static void try_lengths(void)
{
    CHECK(tob_state_len() == TOB_STATE_LEN);
    for (size_t i = 0; i < sizeof lengths / sizeof *lengths; i++) {
        CHECK(tob_message_len(lengths[i].settings) == lengths[i].message);
        CHECK(tob_frame_len(lengths[i].settings) == lengths[i].frame);
        CHECK(tob_sender_len(lengths[i].settings) == lengths[i].sender);
        CHECK(tob_receiver_len(lengths[i].settings) == lengths[i].receiver);
    }
}

/* The longest lengths so far: of a message, a frame, a sender's rows and a receiver's rows. */
static size_t longest[4];

/* Takes settings into account, for every number of lanes. */
static void measure(uint8_t w, uint8_t t, uint8_t b, uint8_t n)
{
    size_t (*const len[4])(const uint8_t *) = {tob_message_len, tob_frame_len, tob_sender_len, tob_receiver_len};
    for (uint8_t lanes = 64; lanes > 0; lanes--) {
        const uint8_t settings[TOB_SETTINGS_LEN] = {w, t, b, n, lanes};
        if (tob_message_len(settings) == 0)
            return; /* as for any lanes */
        for (int i = 0; i < 4; i++)
            longest[i] = len[i](settings) > longest[i] ? len[i](settings) : longest[i];
    }
}

/* Every window and every delay, and bursts and scattered losses up to 17, which is above any that are accepted. */
static void try_longest(void)
{
    for (unsigned wt = 0; wt < 256 * 256; wt++)
        for (unsigned bn = 0; bn < 18 * 18; bn++)
            measure((uint8_t)(wt / 256), (uint8_t)(wt % 256), (uint8_t)(bn / 18), (uint8_t)(bn % 18));
    CHECK(longest[0] == TOB_MESSAGE_MAX);
    CHECK(longest[1] == TOB_FRAME_MAX);
    CHECK(longest[2] == TOB_SENDER_MAX);
    CHECK(longest[3] == TOB_RECEIVER_MAX);
}

/* ---- frames, by literals: W, T, B, N, L = 4, 3, 2, 2, 2 */

enum { SLOTS = 6, DELAY = 3, MESSAGE_LEN = 4, FRAME_LEN = 22, SENDER_LEN = 12, RECEIVER_LEN = 45 };
static const uint8_t settings[TOB_SETTINGS_LEN] = {4, 3, 2, 2, 2};
static const uint8_t messages[SLOTS][MESSAGE_LEN] = {{1, 1, 0, 0}, {0, 0, 1, 0}, {0}, {0}, {0}, {0}};

/* The mark, the version, the settings and the slot, and then the body. */
static const uint8_t frames[SLOTS][FRAME_LEN] = {
    {0x54, 0x4F, 0x42, 0, 1, 4, 3, 2, 2, 2, 0, 0, 0, 0, 1, 1, 0, 0, 0, 0, 0, 0},
    {0x54, 0x4F, 0x42, 0, 1, 4, 3, 2, 2, 2, 0, 0, 0, 1, 0, 0, 1, 0, 0, 0, 0, 0},
    {0x54, 0x4F, 0x42, 0, 1, 4, 3, 2, 2, 2, 0, 0, 0, 2, 0, 0, 0, 0, 1, 3, 0, 0},
    {0x54, 0x4F, 0x42, 0, 1, 4, 3, 2, 2, 2, 0, 0, 0, 3, 0, 0, 0, 0, 0, 0, 0x18, 0x1B},
    {0x54, 0x4F, 0x42, 0, 1, 4, 3, 2, 2, 2, 0, 0, 0, 4, 0, 0, 0, 0, 0, 0, 0, 0},
    {0x54, 0x4F, 0x42, 0, 1, 4, 3, 2, 2, 2, 0, 0, 0, 5, 0, 0, 0, 0, 0, 0, 0, 0},
};

static void try_sending(void)
{
    static const uint8_t opened[TOB_STATE_LEN] = {'T', 'O', 'B', 'S', 4, 3, 2, 2, 2};
    uint8_t state[TOB_STATE_LEN], rows[SENDER_LEN], frame[FRAME_LEN];
    CHECK(tob_open_sender(settings, state, sizeof state, rows, sizeof rows) == TOB_ACCEPTED);
    CHECK(memcmp(state, opened, sizeof state) == 0);
    for (int slot = 0; slot < SLOTS; slot++) {
        CHECK(tob_send(state, sizeof state, rows, sizeof rows, messages[slot], MESSAGE_LEN, frame, FRAME_LEN)
              == TOB_ACCEPTED);
        CHECK(memcmp(frame, frames[slot], FRAME_LEN) == 0);
        CHECK(state[12] == slot + 1);
    }
}

/* What becomes of messages 0, 1 and 2 where some slots are lost, as bits, and slot 2 has another first parity. */
static const struct {
    unsigned lost;
    uint8_t change;
    uint32_t replies[3];
} losses[] = {
    {0x00, 0, {TOB_WHOLE, TOB_WHOLE, TOB_WHOLE}},
    {0x03, 0, {TOB_WHOLE, TOB_WHOLE, TOB_WHOLE}}, /* slots 0 and 1 */
    {0x07, 0, {TOB_LOST, TOB_LOST, TOB_WHOLE}},   /* slots 0 to 2 */
    {0x00, 3, {TOB_CLASH, TOB_CLASH, TOB_WHOLE}},
};

static void try_receiving(unsigned lost, uint8_t change, const uint32_t replies[3])
{
    static const uint8_t opened[TOB_STATE_LEN] = {'T', 'O', 'B', 'R', 4, 3, 2, 2, 2}, zeros[MESSAGE_LEN] = {0};
    uint8_t state[TOB_STATE_LEN], rows[RECEIVER_LEN], frame[FRAME_LEN], message[MESSAGE_LEN];
    CHECK(tob_open_receiver(settings, state, sizeof state, rows, sizeof rows) == TOB_ACCEPTED);
    CHECK(memcmp(state, opened, sizeof state) == 0);
    for (int slot = 0; slot < SLOTS; slot++) {
        memset(message, 0xEE, MESSAGE_LEN);
        memcpy(frame, frames[slot], FRAME_LEN);
        frame[18] ^= slot == 2 ? change : 0;
        uint32_t reply =
            (lost >> slot & 1) != 0
                ? tob_lost(state, sizeof state, rows, sizeof rows, message, MESSAGE_LEN)
                : tob_heard(state, sizeof state, rows, sizeof rows, frame, FRAME_LEN, message, MESSAGE_LEN);
        CHECK(reply == (slot < DELAY ? TOB_NONE_YET : replies[slot - DELAY]));
        CHECK(memcmp(message, reply == TOB_WHOLE ? messages[slot - DELAY] : zeros, MESSAGE_LEN) == 0);
        CHECK(state[12] == slot + 1);
    }
}

/* ---- refusals */

/* What the calls are lent, each buffer with room for a byte too many, and what it was before a call. */
static struct {
    uint32_t slot;
    uint8_t settings[TOB_SETTINGS_LEN], state[TOB_STATE_LEN + 1], rows[RECEIVER_LEN + 1], message[MESSAGE_LEN + 1];
    uint8_t frame[FRAME_LEN + 1];
} now, before;

/* A call that is refused, and changes nothing of it. */
#define REFUSED(cause, call)                                                                                           \
    do {                                                                                                               \
        memcpy(&before, &now, sizeof now);                                                                             \
        CHECK(call == cause);                                                                                          \
        CHECK(memcmp(&before, &now, sizeof now) == 0);                                                                 \
    } while (0)

/* How many bytes of each buffer a call is lent, and each call with that. */
enum { STATE, ROWS, MESSAGE, FRAME, BUFFERS };

static uint32_t open_sender(const size_t *len)
{
    return tob_open_sender(now.settings, now.state, len[STATE], now.rows, len[ROWS]);
}

static uint32_t open_receiver(const size_t *len)
{
    return tob_open_receiver(now.settings, now.state, len[STATE], now.rows, len[ROWS]);
}

static uint32_t open_receiver_at(const size_t *len)
{
    return tob_open_receiver_at(now.settings, now.slot, now.state, len[STATE], now.rows, len[ROWS]);
}

static uint32_t send(const size_t *len)
{
    return tob_send(now.state, len[STATE], now.rows, len[ROWS], now.message, len[MESSAGE], now.frame, len[FRAME]);
}

static uint32_t heard(const size_t *len)
{
    return tob_heard(now.state, len[STATE], now.rows, len[ROWS], now.frame, len[FRAME], now.message, len[MESSAGE]);
}

static uint32_t lost(const size_t *len)
{
    return tob_lost(now.state, len[STATE], now.rows, len[ROWS], now.message, len[MESSAGE]);
}

static uint32_t look_up(const size_t *len)
{
    return tob_look_up(now.state, len[STATE], now.rows, len[ROWS], 0, now.message, len[MESSAGE]);
}

static uint32_t slot_due(const size_t *len)
{
    return tob_slot_due(now.state, len[STATE], &now.slot);
}

/* Each call, the end whose state it reads, the exact lengths of what it is lent, and its reply to that. */
static const struct call {
    uint32_t (*make)(const size_t *);
    char end;
    size_t len[BUFFERS];
    uint32_t reply;
} calls[] = {
    {open_sender, 0, {20, 12, 0, 0}, TOB_ACCEPTED},      {open_receiver, 0, {20, 45, 0, 0}, TOB_ACCEPTED},
    {open_receiver_at, 0, {20, 45, 0, 0}, TOB_ACCEPTED}, {send, 'S', {20, 12, 4, 22}, TOB_ACCEPTED},
    {heard, 'R', {20, 45, 4, 22}, TOB_NONE_YET},         {lost, 'R', {20, 45, 4, 0}, TOB_NONE_YET},
    {look_up, 'R', {20, 45, 4, 0}, TOB_WHOLE},           {slot_due, 'S', {20, 0, 0, 0}, TOB_ACCEPTED},
    {slot_due, 'R', {20, 0, 0, 0}, TOB_ACCEPTED},
};
static const size_t sender_len[BUFFERS] = {20, 12, 4, 22}, receiver_len[BUFFERS] = {20, 45, 4, 22};

/* Lends what the calls of an end accept: a sender just opened, or a receiver that has heard slot 0; and slot 1's frame.
 */
static void lend(char end)
{
    memset(&now, 0xEE, sizeof now);
    now.slot = 7;
    memcpy(now.settings, settings, sizeof settings);
    memcpy(now.frame, frames[0], FRAME_LEN);
    if (end == 'S') {
        CHECK(open_sender(sender_len) == TOB_ACCEPTED);
    } else if (end == 'R') {
        CHECK(open_receiver(receiver_len) == TOB_ACCEPTED);
        CHECK(heard(receiver_len) == TOB_NONE_YET);
    }
    memcpy(now.frame, frames[1], FRAME_LEN);
}

/* Each buffer a byte too short, and too long: TOB_BAD_LENGTH. */
static void try_bad_lengths(const struct call *c)
{
    lend(c->end);
    for (int i = 0; i < BUFFERS; i++) {
        size_t len[BUFFERS];
        memcpy(len, c->len, sizeof len);
        if (len[i] == 0)
            continue;
        len[i]--;
        REFUSED(TOB_BAD_LENGTH, c->make(len));
        len[i] += 2;
        REFUSED(TOB_BAD_LENGTH, c->make(len));
    }
    CHECK(c->make(c->len) == c->reply);
}

/* Settings that are not accepted, on their own or in a state, and a state of no end or of the other: TOB_BAD_SETTINGS,
 * whatever the rows' length, and TOB_BAD_LENGTH where the state's is wrong. */
static void try_bad_settings(const struct call *c)
{
    static const size_t no_rows[BUFFERS] = {20, 0, 0, 0}, no_state[BUFFERS] = {19, 0, 0, 0};
    lend(c->end);
    now.settings[3] = 0;
    now.state[7] = 0;
    REFUSED(TOB_BAD_SETTINGS, c->make(c->len));
    REFUSED(TOB_BAD_SETTINGS, c->make(no_rows));
    REFUSED((c->end == 0 ? TOB_BAD_SETTINGS : TOB_BAD_LENGTH), c->make(no_state));
    for (int i = 0; i < 4 && c->end != 0; i++) {
        lend(c->end);
        now.state[i] ^= 0x20;
        REFUSED(TOB_BAD_SETTINGS, c->make(c->len));
    }
    lend(c->end == 'S' ? 'R' : 'S');
    if (c->end != 0 && c->make != slot_due)
        REFUSED(TOB_BAD_SETTINGS, c->make(c->len));
}

/* A state whose slot due is 4,000,000,000: TOB_PAST_LAST_SLOT, before any cause of the frame; but its slot is read. */
static void try_past_last_slot(const struct call *c)
{
    static const uint8_t past[4] = {0xEE, 0x6B, 0x28, 0x00};
    lend(c->end);
    memcpy(now.state + 9, past, sizeof past);
    if (c->make == slot_due) {
        CHECK(slot_due(c->len) == TOB_ACCEPTED && now.slot == 4000000000u);
    } else if (c->end != 0) {
        now.frame[0] = 0;
        REFUSED(TOB_PAST_LAST_SLOT, c->make(c->len));
    }
}

/* The last slot can be opened at and reported, and none after it: TOB_LATE_OPENING, after TOB_BAD_LENGTH. */
static void try_last_slot(void)
{
    static const uint8_t opened[TOB_STATE_LEN] = {'T',  'O',  'B',  'R',  4,    3,    2,    2, 2, 0xEE,
                                                  0x6B, 0x27, 0xFF, 0xEE, 0x6B, 0x27, 0xFF, 0, 0, 0};
    lend(0);
    now.slot = UINT32_MAX;
    REFUSED(TOB_LATE_OPENING, open_receiver_at(receiver_len));
    now.slot = 4000000000u;
    REFUSED(TOB_LATE_OPENING, open_receiver_at(receiver_len));
    REFUSED(TOB_BAD_LENGTH, open_receiver_at(sender_len));
    now.slot = 3999999999u;
    CHECK(open_receiver_at(receiver_len) == TOB_ACCEPTED);
    CHECK(memcmp(now.state, opened, sizeof opened) == 0);
    CHECK(lost(receiver_len) == TOB_LOST);
    REFUSED(TOB_PAST_LAST_SLOT, lost(receiver_len));
    CHECK(slot_due(receiver_len) == TOB_ACCEPTED && now.slot == 4000000000u);
}

/* The cause of a frame by the first byte of its header that is wrong. */
static uint32_t cause_of(int byte)
{
    return byte < 5 ? TOB_OTHER_MARK : byte < 10 ? TOB_OTHER_SETTINGS : TOB_OTHER_SLOT;
}

/* Any one or two bytes of the header wrong: the first cause is the reply. */
static void try_other_frames(void)
{
    for (int i = 0; i < TOB_HEADER_LEN; i++) {
        for (int j = i; j < TOB_HEADER_LEN; j++) {
            lend('R');
            now.frame[i] ^= 1;
            now.frame[j] ^= i == j ? 0 : 0x80;
            REFUSED(cause_of(i), heard(receiver_len));
        }
    }
    lend('R');
    memcpy(now.frame, frames[0], FRAME_LEN);
    REFUSED(TOB_OTHER_SLOT, heard(receiver_len));
    memcpy(now.frame, frames[2], FRAME_LEN);
    REFUSED(TOB_OTHER_SLOT, heard(receiver_len));
}

/* ---- look-ups and slots */

static uint32_t look_up_number(int64_t number)
{
    return tob_look_up(now.state, TOB_STATE_LEN, now.rows, RECEIVER_LEN, number, now.message, MESSAGE_LEN);
}

/* In reach are the messages whose own slot is reported and whose last one is not, and no other number. */
static void try_reach(void)
{
    static const int64_t beyond[] = {INT64_MIN, -4294967296, -1, 1, 4294967296, INT64_MAX};
    lend('R');
    for (size_t i = 0; i < sizeof beyond / sizeof *beyond; i++)
        REFUSED(TOB_OUT_OF_REACH, look_up_number(beyond[i]));
    for (int slot = 1; slot <= 3; slot++)
        CHECK(lost(receiver_len) == (slot < DELAY ? TOB_NONE_YET : TOB_WHOLE));
    REFUSED(TOB_OUT_OF_REACH, look_up_number(0));
    for (int number = 1; number <= 3; number++)
        CHECK(look_up_number(number) == TOB_LOST);
    REFUSED(TOB_OUT_OF_REACH, look_up_number(4));
}

/* A look-up writes the message buffer alone: the message where it is whole, else zeros. */
static void check_look_up(uint32_t reply, const uint8_t *message)
{
    memcpy(&before, &now, sizeof now);
    CHECK(look_up_number(0) == reply);
    CHECK(memcmp(now.message, message, MESSAGE_LEN) == 0);
    memcpy(now.message, before.message, MESSAGE_LEN);
    CHECK(memcmp(&before, &now, sizeof now) == 0);
}

/* Message 0 once slot 0 is heard; once it is lost; and once slots 0, 1 and a changed slot 2 are heard. */
static void try_look_ups(void)
{
    lend('R');
    check_look_up(TOB_WHOLE, messages[0]);
    CHECK(heard(receiver_len) == TOB_NONE_YET);
    memcpy(now.frame, frames[2], FRAME_LEN);
    now.frame[18] ^= 3;
    CHECK(heard(receiver_len) == TOB_NONE_YET);
    memset(now.message, 0xEE, MESSAGE_LEN);
    check_look_up(TOB_CLASH, messages[2]);
    CHECK(open_receiver(receiver_len) == TOB_ACCEPTED && lost(receiver_len) == TOB_NONE_YET);
    memset(now.message, 0xEE, MESSAGE_LEN);
    check_look_up(TOB_LOST, messages[2]);
}

/* The slot due and a frame's slot are read high byte first, and any slot is read. */
static void try_slots(void)
{
    for (const char *end = "SR"; *end != 0; end++) {
        lend(*end);
        now.state[9] = 0xFF, now.state[10] = 0xFE, now.state[11] = 0xFD, now.state[12] = 0xFC;
        CHECK(slot_due(receiver_len) == TOB_ACCEPTED && now.slot == 0xFFFEFDFCu);
    }
    now.frame[10] = 0xFB, now.frame[11] = 0xFA, now.frame[12] = 0xF9, now.frame[13] = 0xF8;
    memset(now.frame + 5, 0, TOB_SETTINGS_LEN);
    CHECK(tob_frame_slot(now.frame, TOB_HEADER_LEN, &now.slot) == TOB_ACCEPTED && now.slot == 0xFBFAF9F8u);
    now.slot = 7;
    CHECK(tob_frame_slot(now.frame, FRAME_LEN + 1, &now.slot) == TOB_ACCEPTED && now.slot == 0xFBFAF9F8u);
    REFUSED(TOB_BAD_LENGTH, tob_frame_slot(now.frame, 0, &now.slot));
    for (int i = 0; i < 5; i++) {
        now.frame[i] ^= 2;
        REFUSED(TOB_BAD_LENGTH, tob_frame_slot(now.frame, TOB_HEADER_LEN - 1, &now.slot));
        REFUSED(TOB_OTHER_MARK, tob_frame_slot(now.frame, TOB_HEADER_LEN, &now.slot));
        now.frame[i] ^= 2;
    }
}

/* ---- pairs of recordings */

/* The slots of two recordings, a byte of each that is changed, or NONE, and the reply. */
enum { NONE = -1 };
static const struct {
    const char *first, *second;
    int in_first, in_second;
    uint32_t reply;
} pairs[] = {
    {"", "", NONE, NONE, TOB_ACCEPTED},
    {"012345", "", NONE, NONE, TOB_ACCEPTED},
    {"024", "0135", NONE, NONE, TOB_ACCEPTED},
    {"02", "13", 22 + 21, 14, TOB_ACCEPTED},  /* bodies of slots that one recording has */
    {"02", "1", 22 + 13, NONE, TOB_ACCEPTED}, /* slot 3 for slot 2 */
    {"01", "12", 22, NONE, TOB_OTHER_MARK},   /* the mark of a second frame */
    {"01", "12", NONE, 4, TOB_OTHER_MARK},    /* a version */
    {"01", "12", 9, NONE, TOB_OTHER_SETTINGS},
    {"01", "12", NONE, 22 + 5, TOB_OTHER_SETTINGS},
    {"01", "12", 9, 22, TOB_OTHER_MARK}, /* both of the last two causes */
    {"10", "12", NONE, NONE, TOB_FALLING_SLOTS},
    {"01", "22", NONE, NONE, TOB_FALLING_SLOTS},
    {"10", "23", NONE, 22 + 5, TOB_OTHER_SETTINGS},
    {"01", "12", 22 + 21, NONE, TOB_UNLIKE_FRAMES}, /* the last byte of slot 1 */
    {"01", "12", NONE, 14, TOB_UNLIKE_FRAMES},
    {"011", "12", NONE, 14, TOB_FALLING_SLOTS},
};

/* Writes the recording of these slots, and returns its length. */
static size_t record(uint8_t *recording, const char *slots, int changed)
{
    size_t len = 0;
    for (; *slots != 0; slots++, len += FRAME_LEN)
        memcpy(recording + len, frames[*slots - '0'], FRAME_LEN);
    if (changed != NONE)
        recording[changed] ^= 1;
    return len;
}

static void try_pairs(void)
{
    static const uint8_t refused[TOB_SETTINGS_LEN] = {4, 3, 2, 0, 2};
    uint8_t first[SLOTS * FRAME_LEN + 1], second[SLOTS * FRAME_LEN + 1];
    for (size_t i = 0; i < sizeof pairs / sizeof *pairs; i++) {
        memset(second, 0, sizeof second);
        size_t first_len = record(first, pairs[i].first, pairs[i].in_first);
        size_t second_len = record(second, pairs[i].second, pairs[i].in_second);
        CHECK(tob_pair_cause(settings, first, first_len, second, second_len) == pairs[i].reply);
        CHECK(tob_pair_cause(settings, first, first_len, second, second_len + 1) == TOB_BAD_LENGTH);
        CHECK(tob_pair_cause(settings, first, first_len + 1, second, second_len) == TOB_BAD_LENGTH);
        CHECK(tob_pair_cause(refused, first, first_len + 1, second, second_len) == TOB_BAD_SETTINGS);
    }
}

/* The longest recording, of frames of 16 bytes, and one of a frame more. */
static void try_longest_recording(void)
{
    static const uint8_t shortest[TOB_SETTINGS_LEN] = {2, 1, 1, 1, 1}, mark[5] = {0x54, 0x4F, 0x42, 0, 1};
    static uint8_t recording[TOB_RECORDING_MAX + 16];
    for (unsigned slot = 0; slot < sizeof recording / 16; slot++) {
        uint8_t *frame = recording + slot * 16;
        memcpy(frame, mark, 5);
        memcpy(frame + 5, shortest, 5);
        frame[12] = (uint8_t)(slot / 256);
        frame[13] = (uint8_t)(slot % 256);
    }
    CHECK(tob_pair_cause(shortest, recording, TOB_RECORDING_MAX, recording, 0) == TOB_ACCEPTED);
    CHECK(tob_pair_cause(shortest, recording, sizeof recording, recording, 0) == TOB_BAD_LENGTH);
    CHECK(tob_pair_cause(shortest, recording, 0, recording, sizeof recording) == TOB_BAD_LENGTH);
}

int main(void)
{
    try_names();
    try_lengths();
    try_longest();
    try_sending();
    for (size_t i = 0; i < sizeof losses / sizeof *losses; i++)
        try_receiving(losses[i].lost, losses[i].change, losses[i].replies);
    for (size_t i = 0; i < sizeof calls / sizeof *calls; i++) {
        try_bad_lengths(&calls[i]);
        try_bad_settings(&calls[i]);
        try_past_last_slot(&calls[i]);
    }
    try_last_slot();
    try_other_frames();
    try_reach();
    try_look_ups();
    try_slots();
    try_pairs();
    try_longest_recording();
    return 0;
}
