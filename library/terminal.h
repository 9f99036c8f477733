/* A terminal's receiving loop over the calls of tob.h, to be copied into firmware: `receive` for each frame that the
 * radio hears, and `pass` for each slot that went by without one. Whatever state a set is in, it is back after a few
 * frames of its broadcast, and then tells only what these say. The program that includes it has `opened`, `told` and
 * `dropped`. */
#ifndef TOB_TERMINAL_H
#define TOB_TERMINAL_H

#include <stdbool.h>
#include <string.h>

#include "tob.h"

/* Slots of frames that were dropped: how many frames have continued each other, and the slot of the last. */
struct run {
    uint32_t slot;
    unsigned frames;
};

/* How many runs are kept: so many frames of others, less one, may come between two of a broadcast that is followed. */
enum { RUNS = 4 };

/* The settings, W, T, B, N and L; whether it has taken a frame since it was switched on; what it keeps for the
 * library; the message that is told; and the runs, that of the latest frame first. Switched on, all but the settings
 * is zeros, or as `restore` has it. */
struct terminal {
    uint8_t settings[TOB_SETTINGS_LEN];
    bool on;
    uint8_t state[TOB_STATE_LEN], rows[TOB_RECEIVER_MAX], message[TOB_MESSAGE_MAX];
    struct run runs[RUNS];
};

/* The receiver was opened at a slot: nothing that was shown goes on from there, and the screen is cleared. */
static void opened(struct terminal *set, uint32_t slot);

/* The report of a slot, of a frame that was heard or of a loss, was replied to. Where that is TOB_WHOLE,
 * set->message is the message that was due. */
static void told(struct terminal *set, uint32_t slot, bool was_heard, uint32_t reply);

/* A frame was dropped, for this cause. */
static void dropped(struct terminal *set, uint32_t cause);

/* Why a frame is not one of this broadcast, which a recording of it alone would be refused for; or TOB_ACCEPTED, and
 * its slot. */
static uint32_t examine(const struct terminal *set, const uint8_t *frame, size_t frame_len, uint32_t *slot)
{
    if (frame_len != tob_frame_len(set->settings))
        return TOB_BAD_LENGTH;
    uint32_t cause = tob_pair_cause(set->settings, frame, frame_len, frame, 0);
    if (cause == TOB_ACCEPTED)
        cause = tob_frame_slot(frame, frame_len, slot);
    return cause == TOB_ACCEPTED && *slot > TOB_LAST_SLOT ? TOB_OTHER_SLOT : cause;
}

/* Reports the frame of the slot due. */
static uint32_t heard(struct terminal *set, const uint8_t *frame, size_t frame_len)
{
    return tob_heard(set->state, sizeof set->state, set->rows, tob_receiver_len(set->settings), frame, frame_len,
                     set->message, tob_message_len(set->settings));
}

/* Reports that the slot due was lost, and goes on to the next. */
static void lost(struct terminal *set, uint32_t due)
{
    uint32_t reply = tob_lost(set->state, sizeof set->state, set->rows, tob_receiver_len(set->settings), set->message,
                              tob_message_len(set->settings));
    if (!TOB_REFUSED(reply))
        told(set, due, false, reply);
}

/* Whether a frame that tob_heard has refused is early, by no more slots than the window has; and the slot due. */
static bool is_early(const struct terminal *set, uint32_t reply, uint32_t slot, uint32_t *due)
{
    return reply == TOB_OTHER_SLOT && tob_slot_due(set->state, sizeof set->state, due) == TOB_ACCEPTED && slot > *due
           && slot - *due <= set->settings[0] /* W */;
}

/* Counts a frame that is neither due nor early: in the run whose last slot is nearest below its own, and at most a
 * window away, or in a new one, for which the run of the oldest frame is given up. True once the run counts two
 * frames more than a burst has slots. */
static bool is_followed(struct terminal *set, uint32_t slot)
{
    size_t place = RUNS - 1;
    uint32_t nearest = set->settings[0] /* W */;
    unsigned frames = 0;
    for (size_t i = 0; i < RUNS; i++) {
        uint32_t between = slot - set->runs[i].slot - 1;
        if (between < nearest) {
            nearest = between;
            place = i;
            frames = set->runs[i].frames;
        }
    }
    memmove(set->runs + 1, set->runs, place * sizeof *set->runs);
    set->runs[0].slot = slot;
    set->runs[0].frames = frames + 1;
    return frames + 1 >= set->settings[2] /* B */ + 2u;
}

/* A frame that was taken counts against every run, as much as two that were dropped. */
static void hold(struct terminal *set)
{
    for (size_t i = 0; i < RUNS; i++)
        set->runs[i].frames = set->runs[i].frames < 2 ? 0 : set->runs[i].frames - 2;
}

/* Opens the receiver at a slot. This writes every row, so nothing from before counts as received. */
static bool open_at(struct terminal *set, uint32_t slot)
{
    if (tob_open_receiver_at(set->settings, slot, set->state, sizeof set->state, set->rows,
                             tob_receiver_len(set->settings))
        != TOB_ACCEPTED)
        return false;
    memset(set->runs, 0, sizeof set->runs);
    opened(set, slot);
    return true;
}

/* Takes a frame as the radio hands it out. That of the slot due is reported; one that is a little early too, once
 * the slots that it skips are reported as lost. Any other is dropped, until so many have followed each other that
 * the set opens anew; a set that is just switched on opens at the first that is not of the slot due. */
static inline void receive(struct terminal *set, const uint8_t *frame, size_t frame_len)
{
    uint32_t slot, due, reply = examine(set, frame, frame_len, &slot);
    if (reply == TOB_ACCEPTED) {
        reply = heard(set, frame, frame_len);
        if (TOB_REFUSED(reply) && set->on && is_early(set, reply, slot, &due)) {
            for (; due < slot; due++)
                lost(set, due);
            reply = heard(set, frame, frame_len);
        } else if (TOB_REFUSED(reply) && (!set->on || is_followed(set, slot)) && open_at(set, slot)) {
            reply = heard(set, frame, frame_len);
        }
    }
    if (TOB_REFUSED(reply)) {
        dropped(set, reply);
        return;
    }
    set->on = true;
    hold(set);
    told(set, slot, true, reply);
}

/* Takes the news that the slot due has gone by and its frame does not come any more. A set that has taken no frame
 * since it was switched on does not know which slot that is, and waits. */
static inline void pass(struct terminal *set)
{
    uint32_t due;
    if (set->on && tob_slot_due(set->state, sizeof set->state, &due) == TOB_ACCEPTED)
        lost(set, due);
}

/* Takes a state and rows that were saved. They go on if the first frame that is heard is of the slot due; with any
 * other the receiver is opened at that one's slot, and they are gone. */
static inline void restore(struct terminal *set, const uint8_t *state, const uint8_t *rows)
{
    memcpy(set->state, state, sizeof set->state);
    memcpy(set->rows, rows, tob_receiver_len(set->settings));
    memset(set->runs, 0, sizeof set->runs);
    set->on = false;
}

#endif
