/* A terminal that hears a broadcast over a lossy link. Its loop is `receive`, for a frame or for a slot without one.
 * After it come the check of what comes out, and then the sender and the link, which loses frames, brings some late or
 * twice, and some that are not the broadcast's. Prints each slot that is reported and each frame that is dropped.
 * Returns 1 if a message under fair losses does not come out whole, as it was sent, if one that was known does not stay
 * so, if a slot is not reported, or if a dropped frame changes anything. */
#include <stdbool.h>
#include <stdio.h>
#include <string.h>

#include "tob.h"

/* Of any 9 slots in a row, any 2 may be lost, or any number within 4 slots in a row, whatever is heard among them;
 * a message comes out 5 slots later; 2 lanes. */
enum { WINDOW = 9, DELAY = 5, BURST = 4, SCATTERED = 2, LANES = 2 };
static const uint8_t settings[TOB_SETTINGS_LEN] = {WINDOW, DELAY, BURST, SCATTERED, LANES};

/* ---- the terminal */

/* The most slots by which a frame may be early. One that is earlier is taken as damaged, and dropped. */
enum { MOST_EARLY = 4095 };

/* Whether it has heard a frame of its own, what it keeps for the library, and the message that is told. */
static struct {
    bool on;
    uint8_t state[TOB_STATE_LEN], rows[TOB_RECEIVER_MAX], message[TOB_MESSAGE_MAX];
} set;

/* Opens the receiver at the slot of a frame. The slots before it count as lost. */
static bool open_at(const uint8_t *frame, size_t frame_len)
{
    uint32_t slot;
    return tob_frame_slot(frame, frame_len, &slot) == TOB_ACCEPTED
           && tob_open_receiver_at(settings, slot, set.state, sizeof set.state, set.rows, tob_receiver_len(settings))
                  == TOB_ACCEPTED;
}

/* Reports the frame of the slot due. */
static uint32_t heard(const uint8_t *frame, size_t frame_len)
{
    return tob_heard(set.state, sizeof set.state, set.rows, tob_receiver_len(settings), frame, frame_len, set.message,
                     tob_message_len(settings));
}

/* Reports that the slot due was lost. */
static uint32_t lost(void)
{
    return tob_lost(set.state, sizeof set.state, set.rows, tob_receiver_len(settings), set.message,
                    tob_message_len(settings));
}

/* What becomes of a reply: the message that a report tells, or a frame that is dropped. */
static void handle(bool is_frame, uint32_t reply);

/* Takes what the radio heard, or NULL when a slot has passed and nothing came. The first frame of ours opens the
 * receiver. The slots that an early frame skips are lost; a late or repeated frame, and one of others, is dropped. */
static void receive(const uint8_t *frame, size_t frame_len)
{
    uint32_t reply, slot, due;
    if (!set.on && (frame == NULL || !open_at(frame, frame_len)))
        return;
    reply = frame == NULL ? lost() : heard(frame, frame_len);
    if (reply == TOB_OTHER_SLOT && tob_frame_slot(frame, frame_len, &slot) == TOB_ACCEPTED
        && tob_slot_due(set.state, sizeof set.state, &due) == TOB_ACCEPTED && slot > due && slot - due <= MOST_EARLY) {
        for (; due < slot; due++)
            handle(false, lost());
        reply = heard(frame, frame_len);
    }
    set.on = set.on || !TOB_REFUSED(reply);
    handle(frame != NULL, reply);
}

/* ---- the check */

enum { SLOTS = 56, NEVER = -1 };

/* Whether each slot was heard, the slot by which each message was known, or NEVER, and whether all is good so far. */
static bool was_heard[SLOTS], good = true;
static int known[SLOTS];

/* Message t: t, t + 1, t + 2, and so on. */
static void fill(uint8_t *message, int t)
{
    for (size_t i = 0; i < tob_message_len(settings); i++)
        message[i] = (uint8_t)((size_t)t + i);
}

static bool is_as_sent(const uint8_t *message, int t)
{
    uint8_t sent[TOB_MESSAGE_MAX];
    fill(sent, t);
    return memcmp(message, sent, tob_message_len(settings)) == 0;
}

/* Whether the slots that carry message t, and what repairs it, have fair losses. They are WINDOW slots here, and those
 * before slot 0 count as heard. */
static bool is_fair(int t)
{
    int losses = 0, first = 0, last = 0;
    for (int slot = t + DELAY - WINDOW + 1; slot <= t + DELAY; slot++) {
        if (slot >= 0 && !was_heard[slot]) {
            first = losses == 0 ? slot : first;
            last = slot;
            losses++;
        }
    }
    return losses <= SCATTERED || last - first <= BURST - 1;
}

/* Looks up the messages whose last slot is still to come. A clerk may see each from the first TOB_WHOLE on. */
static void look_up(int slot)
{
    uint8_t message[TOB_MESSAGE_MAX];
    for (int t = slot < DELAY ? 0 : slot - DELAY + 1; t <= slot; t++) {
        uint32_t reply = tob_look_up(set.state, sizeof set.state, set.rows, tob_receiver_len(settings), t, message,
                                     tob_message_len(settings));
        known[t] = reply == TOB_WHOLE && known[t] == NEVER ? slot : known[t];
        good = good && (known[t] == NEVER ? reply == TOB_LOST : reply == TOB_WHOLE && is_as_sent(message, t));
    }
}

/* The reply comes before the buffer: after a refusal the buffer still holds the message before. */
static void handle(bool is_frame, uint32_t reply)
{
    uint32_t due;
    if (TOB_REFUSED(reply) || tob_slot_due(set.state, sizeof set.state, &due) != TOB_ACCEPTED) {
        printf("dropped: %s\n", tob_reply_name(reply));
        return;
    }
    int slot = (int)due - 1, t = slot - DELAY;
    was_heard[slot] = is_frame;
    printf("slot %d %s: ", slot, is_frame ? "heard" : "lost");
    if (reply == TOB_WHOLE)
        printf("%d whole %02x%02x%02x%02x, known since slot %d\n", t, set.message[0], set.message[1], set.message[2],
               set.message[3], known[t] == NEVER ? slot : known[t]);
    else
        printf("%d %s\n", t, tob_reply_name(reply));
    if (t >= 0 && (known[t] != NEVER || is_fair(t)))
        good = good && reply == TOB_WHOLE && is_as_sent(set.message, t);
    look_up(slot);
}

/* ---- the sender and the link */

/* The terminal is switched on at slot 7, and gives a slot up where more than 2 in a row were silent. */
enum { SWITCHED_ON = 7, PATIENCE = 2 };

/* The frames that were sent, back to back. */
static uint8_t sent[SLOTS * TOB_FRAME_MAX];

static uint8_t *frame_of(int slot)
{
    return sent + (size_t)slot * tob_frame_len(settings);
}

/* The slots in which nothing of the broadcast is heard: 3 of a fade of 4, in which slot 12 is heard, then 2 scattered
 * losses, a burst of 6, which is not fair, and the last one and those after it, of which no later frame tells. */
static bool is_lost(int slot)
{
    bool fade = 10 <= slot && slot <= 13 && slot != 12;
    return fade || slot == 24 || slot == 28 || (38 <= slot && slot <= 43) || slot >= SLOTS - 1;
}

/* What arrives besides, and is to be dropped: at which slot, of which slot it is, how many bytes are cut off its end,
 * and what is changed in one of its bytes. */
static const struct {
    int at, of;
    size_t cut, byte;
    uint8_t change;
} strays[] = {
    {7, 7, 0, 8, 1},    /* other settings, before any other frame */
    {17, 17, 0, 0, 1},  /* another mark */
    {18, 18, 0, 6, 1},  /* other settings */
    {19, 19, 2, 0, 0},  /* another length */
    {21, 20, 0, 0, 0},  /* repeated */
    {22, 22, 0, 11, 1}, /* a slot far ahead */
    {27, 24, 0, 0, 0},  /* late */
};

/* The strays of a slot. None opens the receiver, and none changes anything. */
static void bring_strays(int slot)
{
    static uint8_t frame[TOB_FRAME_MAX], before[sizeof set];
    for (size_t i = 0; i < sizeof strays / sizeof *strays; i++) {
        if (strays[i].at != slot)
            continue;
        bool was_on = set.on;
        memcpy(before, &set, sizeof set);
        memcpy(frame, frame_of(strays[i].of), tob_frame_len(settings));
        frame[strays[i].byte] ^= strays[i].change;
        receive(frame, tob_frame_len(settings) - strays[i].cut);
        good = good && (was_on ? memcmp(before, &set, sizeof set) == 0 : !set.on);
    }
}

/* What the terminal heard and what was sent, checked as the recordings of two aerials; and again with a byte changed in
 * a frame that both have, the last one. */
static void check_pair(void)
{
    static uint8_t recording[sizeof sent];
    size_t frame_len = tob_frame_len(settings), len = 0;
    for (int slot = 0; slot < SLOTS; slot++) {
        if (was_heard[slot]) {
            memcpy(recording + len, frame_of(slot), frame_len);
            len += frame_len;
        }
    }
    uint32_t as_heard = tob_pair_cause(settings, recording, len, sent, SLOTS * frame_len);
    recording[len - 1] ^= 1;
    uint32_t changed = tob_pair_cause(settings, recording, len, sent, SLOTS * frame_len);
    printf("what was heard beside what was sent: %s\n", tob_reply_name(as_heard));
    printf("with a byte of it changed: %s\n", tob_reply_name(changed));
    good = good && as_heard == TOB_ACCEPTED && changed == TOB_UNLIKE_FRAMES;
}

/* Sends all messages, and keeps the frames. */
static bool broadcast(void)
{
    static uint8_t state[TOB_STATE_LEN], rows[TOB_SENDER_MAX], message[TOB_MESSAGE_MAX];
    size_t rows_len = tob_sender_len(settings), message_len = tob_message_len(settings);
    if (tob_open_sender(settings, state, sizeof state, rows, rows_len) != TOB_ACCEPTED)
        return false;
    for (int slot = 0; slot < SLOTS; slot++) {
        fill(message, slot);
        if (tob_send(state, sizeof state, rows, rows_len, message, message_len, frame_of(slot), tob_frame_len(settings))
            != TOB_ACCEPTED)
            return false;
    }
    return true;
}

int main(void)
{
    int silent = 0;
    uint32_t due = 0;
    if (!broadcast())
        return 1;
    for (int t = 0; t < SLOTS; t++)
        known[t] = NEVER;
    for (int slot = SWITCHED_ON; slot < SLOTS + PATIENCE; slot++) {
        bring_strays(slot);
        silent = is_lost(slot) ? silent + 1 : 0;
        if (silent == 0)
            receive(frame_of(slot), tob_frame_len(settings));
        else if (silent > PATIENCE)
            receive(NULL, 0);
    }
    good = good && tob_slot_due(set.state, sizeof set.state, &due) == TOB_ACCEPTED && due == SLOTS;
    check_pair();
    printf("%s\n", good ? "good" : "bad");
    return good ? 0 : 1;
}
