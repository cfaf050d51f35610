/* Logging: events of several kinds become lines of text, with times, floats and hexadecimal data, in a ring of the last lines. */
#include <stdarg.h>
#include <stdio.h>
#include <stdlib.h>
#include <string.h>

enum { EVENTS = 100, LINES = 8, LENGTH = 96 };
enum level { TRACE, INFO, WARNING, FAILURE };

static char lines[LINES][LENGTH];
static unsigned written, hash = 2166136261u, state = 21, clock_ticks, of_level[4];

static unsigned next_random(void)
{
    state = state * 1664525u + 1013904223u;
    return state >> 8;
}

static int put_time(char *to, unsigned ticks)
{
    unsigned seconds = ticks / 1000;
    return sprintf(to, "%02u:%02u:%02u.%03u", seconds / 3600 % 24, seconds / 60 % 60, seconds % 60, ticks % 1000);
}

static void write_line(enum level level, const char *format, ...)
{
    static const char *const names[] = {"trace", "info", "warning", "failure"};
    char *line = lines[written++ % LINES];
    va_list values;
    int length = put_time(line, clock_ticks);
    length += sprintf(line + length, " %-7s ", names[level]);
    va_start(values, format);
    length += vsnprintf(line + length, (size_t)(LENGTH - length), format, values);
    va_end(values);
    for (const char *at = line; *at != 0; at++)
        hash = (hash ^ (unsigned char)*at) * 16777619u;
    of_level[level]++;
}

static void sample_event(void)
{
    float voltage = 3.3f * (float)(next_random() % 4096) / 4096, celsius = (voltage - 0.5f) * 100;
    write_line(celsius > 200 ? WARNING : TRACE, "adc %u: %.3f V, %+6.1f C", next_random() % 8, (double)voltage, (double)celsius);
}

static void packet_event(void)
{
    char data[3 * 8 + 1] = "";
    unsigned count = 1 + next_random() % 8;
    for (unsigned k = 0; k < count; k++)
        sprintf(data + 3 * k, "%02x ", next_random() & 255);
    write_line(INFO, "packet of %u: %s", count, data);
}

static void error_event(void)
{
    unsigned code = next_random() % 40;
    write_line(FAILURE, "bus error %d (%#x), retry %u of %d", -(int)code, code, next_random() % 3, 3);
}

static void counter_event(void)
{
    unsigned long long bytes = (unsigned long long)next_random() * next_random();
    write_line(INFO, "%llu bytes, %5.1f%% idle", bytes, (double)(next_random() % 1000) / 10);
}

static void setting_event(void)
{
    char text[24];
    snprintf(text, sizeof text, "gain=%u;mode=%c", next_random() % 500, "abc"[next_random() % 3]);
    char *equals = strchr(text, '=');
    write_line(TRACE, "setting %.*s is %ld, %s", (int)(equals - text), text, strtol(equals + 1, NULL, 10), strrchr(text, ';') + 1);
}

int main(void)
{
    static void (*const events[])(void) = {sample_event, packet_event, error_event, counter_event, setting_event, sample_event, sample_event, packet_event};
    for (unsigned k = 0; k < EVENTS; k++) {
        clock_ticks += next_random() % 5000;
        events[next_random() % 8]();
    }
    for (unsigned k = 0; k < LINES; k++)
        puts(lines[(written + k) % LINES]);
    printf("%u lines, %u trace, %u info, %u warnings, %u failures, hash %08x\n", written, of_level[TRACE], of_level[INFO], of_level[WARNING], of_level[FAILURE], hash);
    return 0;
}
