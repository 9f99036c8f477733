/* tob.h: the static library's calls, for C and C++. Each is proved to do what its comment says, for any bytes at all.
 *
 * Settings are five bytes: W, T, B, N and L, the window, the delay as set, the burst, the scattered losses and the
 * lanes. The delay that is meant below, D, is the smaller of T and W - 1. Settings are accepted where 1 <= N <= B <= D,
 * D - N + 1 + B <= 16 and 1 <= L <= 64. Two ends whose T differ have different settings, even where D is the same.
 *
 * The caller keeps two buffers for each end between its calls: the state, as long as tob_state_len says at either end,
 * and the rows, as long as tob_sender_len or tob_receiver_len says. An opening fills both, and every later call gets
 * both as the call before it left them. A message is as long as tob_message_len says, and a frame as tob_frame_len says.
 *
 * Each call says by one number what became of it. With one of the ten causes, 1 to 10, it is refused and changes no byte
 * that it was lent. The causes are checked in the order of their numbers, and the first that holds is the reply. Of a
 * state of another length no settings can be read, so there TOB_BAD_LENGTH comes before TOB_BAD_SETTINGS. Below, the
 * replies of each call stand in the order of checking. A refused report or look-up leaves the message buffer as it was
 * too, with the message of an earlier call in it: look at the reply before the buffer, and at the buffer only where the
 * reply is TOB_WHOLE.
 *
 * What the caller owes: a pointer is never NULL, not even to a buffer of length 0; each length is that of the memory
 * behind its pointer; the buffers of one call do not overlap; and nothing else reads or writes what a call may write,
 * or writes what it reads, until it returns. The calls allocate nothing and keep nothing, so different ends can be
 * used from different threads.
 *
 * A terminal's loop, as terminal.h has it, to be copied; returning.c uses it. It is not part of the archive. The loop in
 * example.c is a shorter one, which opens once and never anew. Each frame that the radio hears is first looked at: one
 * of another length, mark or settings is of some other broadcast, and one above TOB_LAST_SLOT of none; they are dropped.
 * Any other is given to tob_heard, and the reply says what to do:
 *   16 to 19        the slot is reported, and the message told is shown where it is whole;
 *   TOB_OTHER_SLOT  where the frame is early by at most W slots, as tob_frame_slot and tob_slot_due tell: each slot
 *                   that it skips is reported by tob_lost, which tells a message each time, and then it is given to
 *                   tob_heard again;
 *   else            it is dropped, and its slot is kept in mind, for the set may have to open anew.
 *
 * When to open: a set that is switched on opens with tob_open_receiver_at at the slot of the first frame of its own. It
 * opens anew, in the same way, when frames that it drops follow each other: once B + 2 have come, each at most W slots
 * after the one before, while every frame that is taken counts as two against them. So a set is back after B + 2 frames
 * of its broadcast, whatever state it was in: after a silence, after a damaged slot, when the sender has begun again at
 * slot 0, and with a state that is none. One stray frame does not make it open, nor does another broadcast with a frame
 * in every slot, as long as its own has fair losses and W is at least 2 B. An opening writes every row, so nothing from
 * before counts as received. The screen is to be cleared: messages from before the opening are told as lost, unless the
 * frames since then repair them, and of those before that nothing more is told.
 *
 * What a timer must do: say that the slot due has gone by and that its frame does not come any more, which tob_lost
 * then reports. It starts again with every frame that is taken, never calls while the frame can still come, and is
 * never more than W slots behind. Without a timer a silence of more than W slots costs B + 1 frames more.
 *
 * What a saved state and its rows are good for: to go on with the slot that follows them, and for nothing else. After a
 * restart they wait for a frame; until then no slot is reported, and nothing is looked up. If the first frame of its
 * own is of the slot due, the set goes on; if not, it opens at that frame's slot. Nothing in a frame tells one meeting
 * from another, so what was saved is thrown away when a meeting ends. A set may lose all of it, and only what was sent
 * before its first frame with it.
 *
 * Between two reports tob_look_up tells what is known already. A frame has no check sum of its own: the radio drops
 * what it hears damaged.
 *
 * The bytes of a frame, on the left, and of a state, on the right; numbers of several bytes stand high byte first:
 *   0 to 2    the mark, 54 4F 42 hex (TOB)               0 to 3    TOBS for a sender, TOBR for a receiver
 *   3 to 4    the version of the frame, 1                4 to 8    W, T, B, N, L
 *   5 to 9    W, T, B, N, L                              9 to 12   the slot due
 *   10 to 13  the slot                                   13 to 16  the slot of the opening, 0 for a sender
 *   14 on     the body: D - N + 1 + B symbols, each      17 to 19  spare: zeros are written, and nothing is read
 *             of L bytes, one for each lane
 *
 * The archive has objects for x86-64 Linux, called as System V says. It needs memcpy and memset, and nothing else, and
 * has some 26 KB of code and constants, and no other data. A report takes at most 5,400 bytes of stack, a look-up 5,300,
 * a send 4,000 and any other call 200, whatever the settings; what memcpy and memset take comes on top. */
#ifndef TOB_H
#define TOB_H

#include <stddef.h>
#include <stdint.h>

#ifdef __cplusplus
extern "C" {
#endif

/* The version of this interface, as 100 times its first number and its second: the second grows where a call, a name or
 * a cause is added, the first where one that was here changes or goes. It is not the version of the frames. */
#define TOB_VERSION 100
#define TOB_VERSION_STRING "1.0"

/* A call marked so is told of by the compiler where its reply is not looked at. */
#if defined(__GNUC__)
#define TOB_MUST_USE __attribute__((warn_unused_result))
#elif (defined(__cplusplus) && __cplusplus >= 201703L) || (defined(__STDC_VERSION__) && __STDC_VERSION__ >= 202311L)
#define TOB_MUST_USE [[nodiscard]]
#else
#define TOB_MUST_USE
#endif

/* The length of the settings, of a state, and of a frame's header. */
#define TOB_SETTINGS_LEN 5
#define TOB_STATE_LEN 20
#define TOB_HEADER_LEN 14

/* For buffers of a fixed length: the most that tob_message_len, tob_frame_len, tob_sender_len and tob_receiver_len say,
 * over all settings, and the longest recording. What a call is lent of a buffer has the exact length of its settings. */
#define TOB_MESSAGE_MAX 960
#define TOB_FRAME_MAX 1038
#define TOB_SENDER_MAX 14400
#define TOB_RECEIVER_MAX 30750
#define TOB_RECORDING_MAX 65536

/* The last slot. */
#define TOB_LAST_SLOT 3999999999u

/* An opening, a send, a slot that is read or a pair of recordings: accepted. */
#define TOB_ACCEPTED 0u

/* Refused: the settings are not accepted, or the state is not one of this end and so holds none; the state or a buffer
 * has another length than it should, or a recording is longer than 64 KiB or not a whole number of frames; the last
 * slot, 3,999,999,999, is past; a frame of another mark or version, of other settings, or of another slot than the
 * slot due; a receiver is to be opened past the last slot; a look-up is of a message whose own slot is still to come,
 * whose last slot is past, or whose number is below 0; a recording has a slot that is not above the one before it; and
 * two recordings both have a slot, and any byte of its two frames differs. */
#define TOB_BAD_SETTINGS 1u
#define TOB_BAD_LENGTH 2u
#define TOB_PAST_LAST_SLOT 3u
#define TOB_OTHER_MARK 4u
#define TOB_OTHER_SETTINGS 5u
#define TOB_OTHER_SLOT 6u
#define TOB_LATE_OPENING 7u
#define TOB_OUT_OF_REACH 8u
#define TOB_FALLING_SLOTS 9u
#define TOB_UNLIKE_FRAMES 10u

/* A report or a look-up, accepted: it is too early for a message, which only a report says; the message is whole, and
 * handed out; it is lost; or the frames contradict each other. */
#define TOB_NONE_YET 16u
#define TOB_WHOLE 17u
#define TOB_LOST 18u
#define TOB_CLASH 19u

/* Whether a reply is a cause, and so the call was refused: 1 to 10, and 11 to 15, which are kept for causes to come. */
#define TOB_REFUSED(reply) ((uint32_t)((uint32_t)(reply) - 1u) < 15u)

/* A reply in words, for a log: `unknown` for a number that is none. It is not part of the archive. */
static inline const char *tob_reply_name(uint32_t reply)
{
    switch (reply) {
    case TOB_ACCEPTED: return "accepted";
    case TOB_BAD_SETTINGS: return "bad settings";
    case TOB_BAD_LENGTH: return "bad length";
    case TOB_PAST_LAST_SLOT: return "past last slot";
    case TOB_OTHER_MARK: return "other mark";
    case TOB_OTHER_SETTINGS: return "other settings";
    case TOB_OTHER_SLOT: return "other slot";
    case TOB_LATE_OPENING: return "late opening";
    case TOB_OUT_OF_REACH: return "out of reach";
    case TOB_FALLING_SLOTS: return "falling slots";
    case TOB_UNLIKE_FRAMES: return "unlike frames";
    case TOB_NONE_YET: return "none yet";
    case TOB_WHOLE: return "whole";
    case TOB_LOST: return "lost";
    case TOB_CLASH: return "clash";
    default: return "unknown";
    }
}

/* The TOB_VERSION of the archive: another one than the header's means that they do not belong together. */
TOB_MUST_USE
uint32_t tob_version(void);

/* TOB_STATE_LEN. */
size_t tob_state_len(void);

/* The length of a message, of a frame, of a sender's rows and of a receiver's rows. 0 where the settings are not
 * accepted. */
size_t tob_message_len(const uint8_t settings[TOB_SETTINGS_LEN]);
size_t tob_frame_len(const uint8_t settings[TOB_SETTINGS_LEN]);
size_t tob_sender_len(const uint8_t settings[TOB_SETTINGS_LEN]);
size_t tob_receiver_len(const uint8_t settings[TOB_SETTINGS_LEN]);

/* Opens a sender at slot 0: writes its state and its rows, whatever they held.
 * TOB_BAD_SETTINGS, TOB_BAD_LENGTH (state or rows), or else TOB_ACCEPTED. */
TOB_MUST_USE
uint32_t tob_open_sender(const uint8_t settings[TOB_SETTINGS_LEN], uint8_t *state, size_t state_len, uint8_t *rows,
                         size_t rows_len);

/* Opens a receiver at slot 0: writes its state and its rows, whatever they held.
 * TOB_BAD_SETTINGS, TOB_BAD_LENGTH (state or rows), or else TOB_ACCEPTED. */
TOB_MUST_USE
uint32_t tob_open_receiver(const uint8_t settings[TOB_SETTINGS_LEN], uint8_t *state, size_t state_len, uint8_t *rows,
                           size_t rows_len);

/* Opens a receiver at a slot, which is then the slot due: writes its state and its rows, whatever they held. The slots
 * before it, from 0 on, are losses. Their messages are told like others, from what arrives: at slot t message t - D.
 * TOB_BAD_SETTINGS, TOB_BAD_LENGTH (state or rows), TOB_LATE_OPENING, or else TOB_ACCEPTED. */
TOB_MUST_USE
uint32_t tob_open_receiver_at(const uint8_t settings[TOB_SETTINGS_LEN], uint32_t slot, uint8_t *state, size_t state_len,
                              uint8_t *rows, size_t rows_len);

/* Sends a message in the slot due: writes the slot's frame, the rows, and the state, whose slot due moves on by one.
 * TOB_BAD_LENGTH (state), TOB_BAD_SETTINGS (state), TOB_BAD_LENGTH (rows, message or frame), TOB_PAST_LAST_SLOT,
 * or else TOB_ACCEPTED. */
TOB_MUST_USE
uint32_t tob_send(uint8_t *state, size_t state_len, uint8_t *rows, size_t rows_len, const uint8_t *message,
                  size_t message_len, uint8_t *frame, size_t frame_len);

/* Reports the frame that was heard in the slot due, t: writes the rows, the state, whose slot due moves on by one, and
 * the message buffer: message t - D where the reply is TOB_WHOLE, else zeros.
 * TOB_BAD_LENGTH (state), TOB_BAD_SETTINGS (state), TOB_BAD_LENGTH (rows, frame or message), TOB_PAST_LAST_SLOT,
 * TOB_OTHER_MARK, TOB_OTHER_SETTINGS, TOB_OTHER_SLOT, or else TOB_NONE_YET (while t < D), TOB_WHOLE, TOB_LOST or
 * TOB_CLASH. */
TOB_MUST_USE
uint32_t tob_heard(uint8_t *state, size_t state_len, uint8_t *rows, size_t rows_len, const uint8_t *frame,
                   size_t frame_len, uint8_t *message, size_t message_len);

/* Reports that the slot due, t, was lost: writes the rows, the state, whose slot due moves on by one, and the message
 * buffer: message t - D where the reply is TOB_WHOLE, else zeros.
 * TOB_BAD_LENGTH (state), TOB_BAD_SETTINGS (state), TOB_BAD_LENGTH (rows or message), TOB_PAST_LAST_SLOT, or else
 * TOB_NONE_YET (while t < D), TOB_WHOLE, TOB_LOST or TOB_CLASH. */
TOB_MUST_USE
uint32_t tob_lost(uint8_t *state, size_t state_len, uint8_t *rows, size_t rows_len, uint8_t *message,
                  size_t message_len);

/* Looks a message up by its number before its last slot, number + D, is reported: what is known of it from the slots
 * reported so far, as if those to come were lost. It may be called between any two reports, as often as wanted: it reads
 * the state and the rows, and writes the message buffer alone, the message where the reply is TOB_WHOLE, else zeros.
 * In reach are the numbers t with 0 <= t < due <= t + D, where due is the slot due, and so also messages from before
 * the opening; any other is TOB_OUT_OF_REACH.
 *
 * When a clerk may show the message: from the first TOB_WHOLE on. Where the frames are the sender's own, every later
 * look-up that is not refused, and the report of the last slot, then say TOB_WHOLE with the same bytes, and they are the
 * message as it was sent. It is said from the first slot on at which it can be known: right after the message's own slot
 * where that was heard. TOB_LOST means that it is not known yet; it is final only at the report of the last slot.
 * TOB_CLASH means that frames were not the sender's own, and nothing should be shown.
 * TOB_BAD_LENGTH (state), TOB_BAD_SETTINGS (state), TOB_BAD_LENGTH (rows or message), TOB_PAST_LAST_SLOT,
 * TOB_OUT_OF_REACH, or else TOB_WHOLE, TOB_LOST or TOB_CLASH. */
TOB_MUST_USE
uint32_t tob_look_up(const uint8_t *state, size_t state_len, const uint8_t *rows, size_t rows_len, int64_t number,
                     uint8_t *message, size_t message_len);

/* Reads the slot due from the state of either end, and writes it to slot. A slot past the last is read as it stands.
 * TOB_BAD_LENGTH (state), TOB_BAD_SETTINGS (a state of neither end, or its settings), or else TOB_ACCEPTED. */
TOB_MUST_USE
uint32_t tob_slot_due(const uint8_t *state, size_t state_len, uint32_t *slot);

/* Reads the slot of a frame from its header, and writes it to slot. What stands behind the header is not looked at,
 * whatever its length, and the settings and the slot are not tested: tob_heard tells whether a receiver takes the frame.
 * TOB_BAD_LENGTH (shorter than a header), TOB_OTHER_MARK, or else TOB_ACCEPTED. */
TOB_MUST_USE
uint32_t tob_frame_slot(const uint8_t *frame, size_t frame_len, uint32_t *slot);

/* Checks two recordings of one meeting, that of the first aerial and that of the second, beside the settings of a
 * receiver; it writes nothing. A recording is the frames that were heard, back to back, by rising slots; a slot that
 * was lost has none. An empty recording is accepted, and slots past the last are no cause. Each cause is looked for in
 * both recordings, in every frame, before the next. The settings are lent on their own, so TOB_BAD_SETTINGS comes
 * before TOB_BAD_LENGTH.
 *
 * An accepted pair can be fed to a receiver opened with these settings, slot by slot from its opening slot: the frame
 * of whichever recording has the slot, the first's where both do, to tob_heard, and tob_lost where neither has it.
 * None of these reports is then refused with TOB_OTHER_MARK, TOB_OTHER_SETTINGS or TOB_OTHER_SLOT.
 * TOB_BAD_SETTINGS, TOB_BAD_LENGTH (a recording longer than 64 KiB, 65,536 bytes, or not a whole number of frames),
 * TOB_OTHER_MARK, TOB_OTHER_SETTINGS, TOB_FALLING_SLOTS, TOB_UNLIKE_FRAMES, or else TOB_ACCEPTED. */
TOB_MUST_USE
uint32_t tob_pair_cause(const uint8_t settings[TOB_SETTINGS_LEN], const uint8_t *first, size_t first_len,
                        const uint8_t *second, size_t second_len);

#ifdef __cplusplus
}
#endif

#endif
