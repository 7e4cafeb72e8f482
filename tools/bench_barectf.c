/* What barectf's own C costs. tools/bench compiles it beside the C that barectf generates from the configuration that trace_bench traces by; WITH_CLOCK says that
   the stream has a clock, and VALUE is the payload. It traces so many event records into packets of 4,096 bytes, which are let go. */
#include <inttypes.h>
#include <stdio.h>
#include <stdlib.h>

#include "barectf.h"

static uint8_t buffer[4096];
static unsigned long packets;

#ifdef WITH_CLOCK
static uint32_t ticks;

static uint32_t next_tick(void *data)
{
    return ticks++;
}
#endif

static int is_full(void *data)
{
    return 0;
}

static void open_packet(void *data)
{
    barectf_s_open_packet(data);
}

static void close_packet(void *data)
{
    barectf_s_close_packet(data);
    packets++;
}

int main(int count, char **words)
{
    static struct barectf_s_ctx context;
    struct barectf_platform_callbacks platform = {
#ifdef WITH_CLOCK
        .ticks_clock_get_value = next_tick,
#endif
        .is_backend_full = is_full,
        .open_packet = open_packet,
        .close_packet = close_packet,
    };
    unsigned long calls = count > 1 ? strtoul(words[1], NULL, 10) : 0;

    barectf_init(&context, buffer, sizeof buffer, platform, &context);
    open_packet(&context);
    for (unsigned long call = 0; call < calls; call++)
        barectf_s_trace_e(&context, VALUE);
    close_packet(&context);
    printf("%lu packets\n", packets);
    return 0;
}
