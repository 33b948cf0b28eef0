/* What `pl_live.h` declares, without a pipeline: each line is answered by +PONG. The server of examples/server, linked with
 * this in place of pl_live_c, is what `measure` puts it beside. */
#include "pl_live.h"

#include <stdlib.h>
#include <string.h>

struct channel {
    size_t due; /* bytes of replies that were not taken */
    bool has_ended;
};

static const char reply[] = "+PONG\r\n";
enum { REPLY = sizeof reply - 1 };

uint32_t pl_live_open(struct pl_live *live, const uint8_t *text, size_t length)
{
    struct channel *channel = calloc(1, sizeof *channel);
    (void)text, (void)length;
    if (!channel)
        return PL_LIVE_MEMORY;
    pl_live_close(live);
    live->at = channel;
    return PL_LIVE_OK;
}

uint32_t pl_live_feed(struct pl_live *live, const uint8_t *bytes, size_t length)
{
    struct channel *channel = live->at;
    const uint8_t *end = bytes + length;
    while ((bytes = memchr(bytes, '\n', end - bytes)) != NULL) {
        channel->due += REPLY;
        bytes++;
    }
    return PL_LIVE_OK;
}

bool pl_live_end(struct pl_live *live)
{
    struct channel *channel = live->at;
    channel->has_ended = true;
    return true;
}

size_t pl_live_take_output(struct pl_live *live, uint8_t *into, size_t room)
{
    struct channel *channel = live->at;
    size_t count = channel->due < room ? channel->due : room;
    for (size_t place = 0; place < count; place++)
        into[place] = reply[(REPLY - channel->due % REPLY + place) % REPLY];
    channel->due -= count;
    return count;
}

bool pl_live_wants_input(struct pl_live *live)
{
    struct channel *channel = live->at;
    return !channel->has_ended;
}

bool pl_live_is_done(struct pl_live *live)
{
    struct channel *channel = live->at;
    return channel->has_ended;
}

bool pl_live_has_failed(struct pl_live *live)
{
    (void)live;
    return false;
}

void pl_live_close(struct pl_live *live)
{
    free(live->at);
    live->at = NULL;
}
