/* Records in, lines out. */
#include "lines.h"

enum { CHUNK = 4096, DIGITS = 20 };

void stop(const char *message)
{
    flush(1);
    put("host: ");
    put(message);
    put("\n");
    flush(2);
    exit(2);
}

/* ---- in ---- */

static uint8_t input[CHUNK];
static size_t input_at, input_end;

/* The next byte of standard input, or -1 at its end. */
static int next_byte(void)
{
    if (input_at == input_end) {
        long got = read(0, input, CHUNK);
        if (got < 0)
            stop("standard input can't be read");
        input_at = 0;
        input_end = (size_t)got;
        if (got == 0)
            return -1;
    }
    return input[input_at++];
}

int next_record(uint8_t record[REPLAY_RECORD])
{
    for (int i = 0; i < REPLAY_RECORD; i++) {
        int byte = next_byte();
        if (byte < 0)
            return 0;
        record[i] = (uint8_t)byte;
    }
    return 1;
}

/* ---- out ---- */

static char output[CHUNK];
static size_t output_end;

void flush(int file)
{
    size_t at = 0;
    while (at < output_end) {
        long wrote = write(file, output + at, output_end - at);
        if (wrote <= 0)
            exit(2);
        at += (size_t)wrote;
    }
    output_end = 0;
}

static void put_byte(char byte)
{
    if (output_end == CHUNK)
        flush(1);
    output[output_end++] = byte;
}

void put(const char *text)
{
    for (; *text; text++)
        put_byte(*text);
}

void put_number(unsigned long number)
{
    char digits[DIGITS + 1];
    int at = DIGITS;
    digits[at] = 0;
    do {
        digits[--at] = (char)('0' + number % 10);
        number /= 10;
    } while (number > 0);
    put(digits + at);
}
