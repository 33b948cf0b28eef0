/* A live channel: bytes in as they come, bytes out as they are asked for. README.md, beside this file, says what is owed by
 * who calls this. */
#ifndef PL_LIVE_H
#define PL_LIVE_H

#include <stdbool.h>
#include <stddef.h>
#include <stdint.h>

#ifdef __cplusplus
extern "C" {
#endif

/* A channel, or none. Zeroed it holds none: `struct pl_live live = {0};`. What it holds is this library's alone. */
struct pl_live {
    void *at;
};

/* What a call answers. Unless it is PL_LIVE_OK nothing has changed. */
enum pl_live_answer {
    PL_LIVE_OK = 0,
    PL_LIVE_MEMORY = 1, /* an allocation failed */
    PL_LIVE_FULL = 2,   /* more would have been fed than a channel may ever be, some 10^9 bytes */
    PL_LIVE_CLOSED = 3, /* no bytes may come any more: the end was said, a handler has quit, or something has failed */
    PL_LIVE_NONE = 4,   /* no channel is held */
    PL_LIVE_TEXT = 5,   /* the text is no session; `pl_tool plain` says why */
    PL_LIVE_PLAN = 6    /* the session is not one channel on one executor, without bursts and without an abort */
};

/* Opens the channel of a session text (docs/FORMATS.md, "Session"). It takes the place of the one that was held, which is
 * freed. */
uint32_t pl_live_open(struct pl_live *live, const uint8_t *text, size_t length);

/* Feeds bytes that came in. */
uint32_t pl_live_feed(struct pl_live *live, const uint8_t *bytes, size_t length);

/* Says that none come any more. False: no channel is held. */
bool pl_live_end(struct pl_live *live);

/* Aborts the channel: nothing more is read or sent, but what was made before may still be taken. False: none is held. */
bool pl_live_abort(struct pl_live *live);

/* Copies the next bytes that are to be sent, as many as there are and there is room for, and says how many. They count as
 * sent. After 0, with room, nothing that is due is left inside, unless something has failed. */
size_t pl_live_take_output(struct pl_live *live, uint8_t *into, size_t room);

/* Whether bytes are wanted. Who feeds it only then holds in it at most what the high mark allows, what one call brings, what no
 * handler has flushed, and the 65,536 bytes and one message that may wait to be taken. */
bool pl_live_wants_input(struct pl_live *live);

/* Whether it is over, which it is only after the end was said or something has failed. What pl_live_take_output still gives is
 * the last of it. After a handler has quit, no input is wanted: say the end. */
bool pl_live_is_done(struct pl_live *live);

/* Whether something has failed: a handler, the transport, or a growth that was refused. */
bool pl_live_has_failed(struct pl_live *live);

/* Frees the channel, if one is held. None is held then. */
void pl_live_close(struct pl_live *live);

#ifdef __cplusplus
}
#endif

#endif
