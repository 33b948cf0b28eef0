/* Feeds what it reads to a live channel, and writes what that sends.
 *
 * usage: feed SESSION [CHUNK]     CHUNK bytes at a time, 1 if none is given
 *
 * The channel is that of the session text in the file SESSION. The status is 0 where it is over and nothing has failed, and
 * else 1; what was not answered by PL_LIVE_OK is told. It takes no memory of its own. */
#include "pl_live.h"

#include <fcntl.h>
#include <stdio.h>
#include <stdlib.h>
#include <unistd.h>

static uint8_t text[1 << 20], input[4096], output[4096];

/* Says what a call answered. */
static int told(const char *call, uint32_t answer)
{
    char line[64];
    int length = snprintf(line, sizeof line, "%s answered %u\n", call, (unsigned)answer);
    ssize_t ignored = write(2, line, length);
    (void)ignored;
    return 1;
}

static bool send_all(struct pl_live *live)
{
    for (size_t taken; (taken = pl_live_take_output(live, output, sizeof output)) != 0;)
        for (size_t sent = 0; sent < taken;) {
            ssize_t now = write(1, output + sent, taken - sent);
            if (now <= 0)
                return false;
            sent += now;
        }
    return true;
}

int main(int count, char **words)
{
    struct pl_live live = {0};
    size_t length = 0, chunk = count > 2 ? strtoul(words[2], NULL, 10) : 1;
    int file = count > 1 ? open(words[1], O_RDONLY) : -1;
    uint32_t answer;
    ssize_t got;

    if (file < 0 || chunk == 0 || chunk > sizeof input)
        return told("feed", PL_LIVE_TEXT);
    while ((got = read(file, text + length, sizeof text - length)) > 0)
        length += got;
    if ((answer = pl_live_open(&live, text, length)) != PL_LIVE_OK)
        return told("pl_live_open", answer);
    while (pl_live_wants_input(&live) && (got = read(0, input, chunk)) > 0) {
        if ((answer = pl_live_feed(&live, input, got)) != PL_LIVE_OK)
            break;
        if (!send_all(&live))
            break;
    }
    pl_live_end(&live);
    bool is_sent = send_all(&live), is_whole = pl_live_is_done(&live) && !pl_live_has_failed(&live);
    pl_live_close(&live);
    if (answer != PL_LIVE_OK)
        return told("pl_live_feed", answer);
    return is_sent && is_whole ? 0 : 1;
}
