/* host: a small program that asks Gishwarem four things, and a fifth where it is given a trace, and prints the answers.
 *
 *     cc -std=c99 -I include examples/host.c build/libgishwarem.a -o host
 *     cd examples/data && ../../host envelope descriptor table cached fetched [trace]
 *
 * It shows an envelope, checks a security descriptor, asks for group keys with it, chooses between two envelopes, and replays
 * recorded requests. What it prints for the files kept in examples/data is in examples/host.stdout, and with the trace in
 * examples/host-trace.stdout. */
#include <inttypes.h>
#include <stdio.h>
#include <stdlib.h>

#include "gishwarem.h"

/* One byte more than a record may have, and more rows than a root table may have: too long a file is seen, and refused. */
#define MOST_READ 65536u

/* The clock of this example, a FILETIME in (5,3,7): fixed, so that its output is always the same. A host hands in the time. */
#define CLOCK UINT64_C(1880280000000000)

/* A file's bytes, at most MOST_READ of them. */
typedef struct bytes {
    uint8_t data[MOST_READ];
    size_t len;
} bytes;

/* Reads a file, or ends the program. */
static void read_file(const char *name, bytes *into)
{
    FILE *file = fopen(name, "rb");

    if (file != NULL)
        into->len = fread(into->data, 1, sizeof into->data, file);
    if (file == NULL || ferror(file)) {
        perror(name);
        exit(1);
    }
    fclose(file);
}

/* A refusal is an answer like any other: its number is for programs, its text for logs. */
static void print_refusal(uint32_t refusal)
{
    printf("refused %" PRIu32 ": %s\n", refusal, gw_refusal_text(refusal));
}

static void print_identifier(gw_identifier at)
{
    printf("(%" PRIu32 ",%" PRIu32 ",%" PRIu32 ")", at.l0, at.l1, at.l2);
}

static void print_root(gw_root root)
{
    size_t i;

    for (i = 0; i < sizeof root.bytes; i++)
        printf("%02x", (unsigned)root.bytes[i]);
}

/* A 16-bit unit of a text, the lower byte first. */
static uint32_t unit_at(const uint8_t *text)
{
    return text[0] | (uint32_t)text[1] << 8;
}

/* A character as UTF-8; one that would move a console is `?`. */
static void print_character(uint32_t c)
{
    if (c < 0x20 || (c >= 0x7f && c < 0xa0)) {
        putchar('?');
    } else if (c < 0x80) {
        putchar((int)c);
    } else if (c < 0x800) {
        printf("%c%c", (int)(0xc0 | c >> 6), (int)(0x80 | (c & 0x3f)));
    } else if (c < 0x10000) {
        printf("%c%c%c", (int)(0xe0 | c >> 12), (int)(0x80 | (c >> 6 & 0x3f)), (int)(0x80 | (c & 0x3f)));
    } else {
        printf("%c%c%c%c", (int)(0xf0 | c >> 18), (int)(0x80 | (c >> 12 & 0x3f)), (int)(0x80 | (c >> 6 & 0x3f)),
               (int)(0x80 | (c & 0x3f)));
    }
}

/* A text of an accepted envelope, up to its terminator. It is sound UTF-16: behind a high surrogate stands a low one, so that
 * neither has to be looked for. */
static void print_text(const uint8_t *text, size_t len)
{
    size_t i;

    for (i = 0; i + 2 < len; i += 2) {
        uint32_t c = unit_at(text + i);

        if (c >= 0xd800 && c <= 0xdbff) {
            i += 2;
            c = 0x10000 + ((c - 0xd800) << 10) + (unit_at(text + i) - 0xdc00);
        }
        print_character(c);
    }
}

static const char *form_word(uint32_t form)
{
    switch (form) {
    case GW_FORM_L1ONLY: return "L1ONLY";
    case GW_FORM_L2ONLY: return "L2ONLY";
    case GW_FORM_BOTH: return "BOTH";
    case GW_FORM_PUBLIC: return "PUBLIC";
    default: return "NOKEY"; /* GW_FORM_KEYLESS */
    }
}

/* How many identifiers are reached: by an envelope's keys, or by the keys that a request is granted. */
static void print_reach(gw_reach_answer reach)
{
    if (reach.refusal != GW_ACCEPTED)
        print_refusal(reach.refusal);
    else
        printf("reaches %" PRIu32 "\n", reach.total);
}

/* Prints what an envelope shows: on a refusal nothing, as every other field is zero. A part, such as the domain, is a place
 * in the bytes that were handed in. */
static gw_envelope_answer show_envelope(const bytes *envelope)
{
    gw_envelope_answer answer = gw_envelope_read(envelope->data, envelope->len);

    printf("envelope: ");
    if (answer.refusal != GW_ACCEPTED) {
        print_refusal(answer.refusal);
        return answer;
    }
    print_identifier(answer.head.at);
    printf(" %s, ", form_word(answer.form));
    print_reach(gw_envelope_reach(envelope->data, envelope->len));
    printf("root key: ");
    print_root(answer.head.root);
    printf("\ndomain: ");
    print_text(envelope->data + answer.bodies.domain.at, answer.bodies.domain.len);
    printf("\n");
    return answer;
}

/* What is found of a security descriptor, for a log: sound, or the part that fails first. */
static const char *descriptor_word(uint32_t found)
{
    switch (found) {
    case GW_DESCRIPTOR_SOUND: return "sound";
    case GW_DESCRIPTOR_HEAD: return "its head fails";
    case GW_DESCRIPTOR_OWNER: return "its owner fails";
    case GW_DESCRIPTOR_GROUP: return "its group fails";
    case GW_DESCRIPTOR_SACL: return "its SACL fails";
    default: return "its DACL fails"; /* GW_DESCRIPTOR_DACL */
    }
}

/* Asks for a group key by its indices, or for the latest by -1 in all three, under no root key in particular. The rights come
 * from the host's own access check: here they are those to seed keys. */
static gw_decision_answer ask(const bytes *descriptor, const bytes *table, int32_t l0, int32_t l1, int32_t l2)
{
    gw_request request = {GW_ROOT_NONE, l0, l1, l2, {{0}}};
    gw_decision_answer answer = gw_decide(descriptor->data, descriptor->len, GW_RIGHTS_SEED, request, CLOCK, table->data,
                                          table->len);

    printf("asked for (%" PRId32 ",%" PRId32 ",%" PRId32 "): ", l0, l1, l2);
    if (answer.refusal != GW_ACCEPTED) {
        print_refusal(answer.refusal);
        return answer;
    }
    print_identifier(answer.at);
    printf(" %s, ", form_word(answer.form));
    if (answer.granted == GW_GRANTED_CREATE)
        printf("CREATE, ");
    else
        printf("row %zu, ", answer.row);
    print_reach(gw_form_reach(answer.form, answer.at));
    return answer;
}

/* Chooses the key to derive from. Its place is printed, never its bytes: those are secret. */
static void choose(gw_root root, gw_identifier wanted, const bytes *cached, const bytes *fetched)
{
    gw_choice_answer answer = gw_choose(root, wanted, cached->data, cached->len, fetched->data, fetched->len);

    printf("key for ");
    print_identifier(wanted);
    printf(": ");
    if (answer.refusal != GW_ACCEPTED) {
        print_refusal(answer.refusal);
        return;
    }
    printf("%s envelope, %s key, at %zu, %zu bytes\n", answer.which == GW_CACHED ? "cached" : "fetched",
           answer.key == GW_KEY_L1 ? "L1" : "L2", answer.place.at, answer.place.len);
}

/* Replays recorded requests: lines as many at a time as the output holds, then the total. The state goes in and comes back by
 * value; nothing else is kept. A trace that is longer than what was read would go on with the next chunk. */
static void replay(const bytes *trace, const bytes *table)
{
    uint8_t out[2 * GW_REPLAY_LINE];
    gw_replay_answer answer = {0, 0, 0, 0, {0, {0, 0, 0, 0, 0, 0, 0}}};
    size_t at = 0;

    answer.state = gw_replay_start();
    do {
        answer = gw_replay(out, sizeof out, answer.state, table->data, table->len, trace->data + at, trace->len - at,
                           GW_CHUNK_ENDS);
        fwrite(out, 1, answer.written, stdout);
        at += answer.used;
    } while (answer.stopped == GW_REPLAY_ROOM);
    if (answer.stopped == GW_REPLAY_RECORDS)
        fwrite(out, 1, gw_replay_total(out, sizeof out, answer.state.tally).len, stdout);
    else /* GW_REPLAY_FULL: no total, since the report is cut */
        printf("a count does not fit in 64 bits\n");
}

int main(int argc, char **argv)
{
    static bytes envelope, descriptor, table, cached, fetched, trace; /* not on the stack: they are large */
    gw_envelope_answer shown;
    gw_decision_answer latest;

    if (gw_version() != GW_VERSION) {
        fprintf(stderr, "host: the library is of another version than its header\n");
        return 1;
    }
    if (argc != 6 && argc != 7) {
        fprintf(stderr, "usage: host ENVELOPE DESCRIPTOR TABLE CACHED FETCHED [TRACE]\n");
        return 1;
    }
    read_file(argv[1], &envelope);
    read_file(argv[2], &descriptor);
    read_file(argv[3], &table);
    read_file(argv[4], &cached);
    read_file(argv[5], &fetched);
    if (argc == 7)
        read_file(argv[6], &trace);

    shown = show_envelope(&envelope);
    printf("descriptor: %s\n", descriptor_word(gw_descriptor_check(descriptor.data, descriptor.len)));
    latest = ask(&descriptor, &table, -1, -1, -1);
    ask(&descriptor, &table, 5, 3, 7);
    ask(&descriptor, &table, 5, 3, 8);
    if (shown.refusal == GW_ACCEPTED && latest.refusal == GW_ACCEPTED)
        choose(shown.head.root, latest.at, &cached, &fetched);
    if (argc == 7)
        replay(&trace, &table);
    return 0;
}
