/*
 * Says in words what the reader makes of a datagram, or the cue test of a cue.
 *   cuecheck FILE..       the bytes of each file are a datagram; - is standard input
 *   cuecheck -x HEX..     each word is a datagram in hexadecimal digits; an empty word is the probe
 *   cuecheck -c HEX..     each word is a cue in hexadecimal digits
 * Ends with 0 where nothing is refused, with 1 where something is, and with 2 where something cannot be read.
 */
#include <stdio.h>
#include <stdlib.h>
#include <string.h>

#include "hex.h"
#include "panel.h"

static const char *refusal(uint32_t number)
{
    switch (number) {
    case PANEL_BAD_CUE:
        return "an offset or the lamp is out of range, or these are not 24 bytes";
    case PANEL_BAD_LENGTH:
        return "fewer than 12 bytes, or the counts do not account for the length";
    case PANEL_BAD_KIND:
        return "no kind of message, or not with the counts of its kind";
    case PANEL_BAD_RANGE:
        return "a host, cue number, cue field, stamp or held ticks out of range";
    case PANEL_BAD_HOSTS:
        return "hosts that the kind does not allow, reports or echoes that do not rise, or a lead not from trail to trail+63";
    default:
        return "no number of this program's";
    }
}

/* A kind's name, by the first byte of a message; NULL where this program has none. */
static const char *kind(uint8_t byte)
{
    switch (byte) {
    case 1:
        return "old DATA";
    case 2:
        return "old RQST";
    case 3:
        return "old REPL";
    case 4:
        return "old SESS";
    case 17:
        return "DATA";
    case 18:
        return "RQST";
    case 19:
        return "REPL";
    case 20:
        return "SESS";
    case 21:
        return "XPRS";
    case 22:
        return "FTCH";
    case 23:
        return "LATE";
    case 24:
        return "ANNC";
    default:
        return NULL;
    }
}

static int refused(uint32_t number)
{
    printf("refused %u: %s\n", (unsigned)number, refusal(number));
    return 1;
}

static int datagram(const uint8_t *bytes, size_t length)
{
    uint32_t number = panel_verdict(bytes, length);
    if (number != PANEL_OK)
        return refused(number);
    if (length == 0) {
        printf("probe: no bytes\n");
        return 0;
    }
    if (kind(bytes[0]) != NULL)
        printf("accepted: %s", kind(bytes[0]));
    else
        printf("accepted: kind %u", (unsigned)bytes[0]);
    printf(" of host %u, %zu bytes\n", (unsigned)bytes[1], length);
    return 0;
}

static int cue(const uint8_t *bytes, size_t length)
{
    uint32_t number = panel_cue_test(bytes, length);
    if (number != PANEL_OK)
        return refused(number);
    printf("cue in range\n");
    return 0;
}

static int fault(const char *name, const char *what)
{
    fprintf(stderr, "cuecheck: %s: %s\n", name, what);
    return 2;
}

static int word(const char *digits, int (*judge)(const uint8_t *, size_t))
{
    size_t length = strlen(digits) / 2;
    uint8_t *bytes = malloc(length + 1);
    int status;
    if (bytes == NULL)
        return fault(digits, "no memory");
    status = hex_bytes(digits, strlen(digits), bytes) ? judge(bytes, length) : fault(digits, "not pairs of hexadecimal digits");
    free(bytes);
    return status;
}

/* A file's bytes, whole. */
static int file(const char *name)
{
    FILE *in = strcmp(name, "-") == 0 ? stdin : fopen(name, "rb");
    size_t room = 256, length = 0, got;
    uint8_t *bytes = malloc(room);
    int status = -1;
    if (in == NULL) {
        free(bytes);
        return fault(name, "cannot be opened");
    }
    while (bytes != NULL && (got = fread(bytes + length, 1, room - length, in)) > 0) {
        length += got;
        if (length == room) {
            uint8_t *more = realloc(bytes, room *= 2);
            if (more == NULL)
                free(bytes);
            bytes = more;
        }
    }
    if (bytes == NULL)
        status = fault(name, "no memory");
    else
        status = ferror(in) ? fault(name, "cannot be read") : datagram(bytes, length);
    free(bytes);
    if (in != stdin)
        fclose(in);
    return status;
}

int main(int count, char **words)
{
    const char *way = count > 1 ? words[1] : "";
    int hex = strcmp(way, "-x") == 0, cues = strcmp(way, "-c") == 0, worst = 0, i;
    if (count < (hex || cues ? 3 : 2)) {
        fprintf(stderr, "usage: cuecheck FILE.. | cuecheck -x HEX.. | cuecheck -c HEX..\n");
        return 2;
    }
    for (i = hex || cues ? 2 : 1; i < count; i++) {
        int status = hex ? word(words[i], datagram) : cues ? word(words[i], cue) : file(words[i]);
        if (status > worst)
            worst = status;
    }
    return worst;
}
