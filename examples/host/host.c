/*
 * A camera and the box that receives it, each with its record in a buffer, over a radio that loses, repeats, delays and damages frames.
 * Prints what the box answers to each frame that arrives.
 */
#include "kondrivai.h"

#include <stdio.h>
#include <string.h>

#define HEADER 24
#define BODY 9
#define PLAIN (HEADER + BODY)
#define SEALED (PLAIN + KONDRIVAI_ADDED_OCTETS)
#define FRAMES 8

static const uint8_t camera[KONDRIVAI_ADDRESS_OCTETS] = {0x02, 0, 0, 0, 0, 0x01};
static const uint8_t box[KONDRIVAI_ADDRESS_OCTETS] = {0x02, 0, 0, 0, 0, 0x02};

/* In a product the two sides agree on it, anew for each run. */
static const uint8_t key[KONDRIVAI_KEY_OCTETS] = {0x40, 0x41, 0x42, 0x43, 0x44, 0x45, 0x46, 0x47,
                                                  0x48, 0x49, 0x4a, 0x4b, 0x4c, 0x4d, 0x4e, 0x4f};

/* Something that happens on the air: a frame arrives, by its place among those sealed, whole or with one bit turned over. */
struct arrival {
    int frame;
    int damaged;
    const char *what;
};

static const struct arrival arrivals[] = {
    {0, 0, "the first"},
    {1, 0, "the second"},
    {1, 0, "the second again"},
    {3, 1, "the fourth, damaged"},
    {3, 0, "the fourth"},
    {5, 0, "the sixth"},
    {4, 0, "the fifth, late"},
    {5, 0, "the sixth again"},
    {7, 0, "the eighth"},
    {0, 0, "the first again"},
};

static uint64_t number_at(const uint8_t *octets, int count) {
    uint64_t number = 0;
    while (count-- > 0) {
        number = number << 8 | octets[count];
    }
    return number;
}

/* A data frame from the camera to the box: Frame Control, Duration, A1, A2, A3, Sequence Control, and then the body. */
static void make_frame(uint8_t frame[PLAIN], int i) {
    char body[BODY + 1];
    memset(frame, 0, PLAIN);
    frame[0] = 0x08;
    frame[1] = 0x01;
    memcpy(frame + 4, box, sizeof box);
    memcpy(frame + 10, camera, sizeof camera);
    memcpy(frame + 16, box, sizeof box);
    frame[22] = (uint8_t)(i << 4);
    snprintf(body, sizeof body, "picture %d", i + 1);
    memcpy(frame + HEADER, body, BODY);
}

static const char *name_of(uint32_t answer) {
    switch (answer) {
    case KONDRIVAI_DONE:
        return "done";
    case KONDRIVAI_RECORD:
        return "no record";
    case KONDRIVAI_BODY:
        return "too long a body";
    case KONDRIVAI_ROOM:
        return "too little room";
    case KONDRIVAI_REPLAY:
        return "replay";
    case KONDRIVAI_INTEGRITY:
        return "wrong code";
    default:
        return "another refusal";
    }
}

/* With the body of what was opened, if there is one. */
static void print_answer(const char *what, uint32_t answer, const uint8_t *plain) {
    printf("%-22s %2u %s", what, (unsigned)answer, name_of(answer));
    if (answer == KONDRIVAI_DONE && plain != NULL) {
        printf(": %.*s", BODY, (const char *)plain + HEADER);
    }
    putchar('\n');
}

/* The longest frame that there is, with A4, QoS Control and HT Control, and one octet more. */
static void print_longest(uint8_t sender[KONDRIVAI_SENDER_OCTETS]) {
    static uint8_t frame[KONDRIVAI_MOST_PLAIN + 1];
    static uint8_t sealed[KONDRIVAI_MOST_SEALED];
    const size_t octets = KONDRIVAI_MOST_PLAIN;
    make_frame(frame, FRAMES);
    frame[0] = 0x88;
    frame[1] = 0x83;
    print_answer("the longest, no room", kondrivai_seal(sender, KONDRIVAI_SENDER_OCTETS, frame, octets, sealed, sizeof sealed - 1), NULL);
    print_answer("the longest", kondrivai_seal(sender, KONDRIVAI_SENDER_OCTETS, frame, octets, sealed, sizeof sealed), NULL);
    print_answer("a longer one", kondrivai_seal(sender, KONDRIVAI_SENDER_OCTETS, frame, octets + 1, sealed, sizeof sealed), NULL);
}

int main(void) {
    uint8_t sender[KONDRIVAI_SENDER_OCTETS];
    uint8_t receiver[KONDRIVAI_RECEIVER_OCTETS];
    uint8_t air[FRAMES][SEALED];
    uint8_t plain[PLAIN];
    size_t i;

    if (kondrivai_fresh_sender(sender, sizeof sender, key, sizeof key, 0, camera) != KONDRIVAI_DONE ||
        kondrivai_fresh_receiver(receiver, sizeof receiver, key, sizeof key, 0, camera, KONDRIVAI_LARGE_WINDOW) != KONDRIVAI_DONE) {
        puts("no records");
        return 1;
    }

    for (i = 0; i < FRAMES; i++) {
        make_frame(plain, (int)i);
        if (kondrivai_seal(sender, sizeof sender, plain, sizeof plain, air[i], sizeof air[i]) != KONDRIVAI_DONE) {
            puts("not sealed");
            return 1;
        }
    }
    printf("sealed up to number %u\n", (unsigned)number_at(sender + KONDRIVAI_LAST_NUMBER_AT, 6));

    /* The third and the seventh frame are lost. */
    for (i = 0; i < sizeof arrivals / sizeof arrivals[0]; i++) {
        uint8_t *frame = air[arrivals[i].frame];
        uint32_t answer;
        if (arrivals[i].damaged) {
            frame[SEALED - 1] ^= 1;
        }
        answer = kondrivai_open(receiver, sizeof receiver, frame, SEALED, plain, sizeof plain);
        print_answer(arrivals[i].what, answer, plain);
        if (arrivals[i].damaged) {
            frame[SEALED - 1] ^= 1;
        }
    }

    printf("opened %u, replays %u, decrypt errors %u, format errors %u\n",
           (unsigned)number_at(receiver + KONDRIVAI_OPENED_AT, 4),
           (unsigned)number_at(receiver + KONDRIVAI_REPLAYS_AT, 4),
           (unsigned)number_at(receiver + KONDRIVAI_DECRYPT_ERRORS_AT, 4),
           (unsigned)number_at(receiver + KONDRIVAI_FORMAT_ERRORS_AT, 4));

    /* A buffer that is no record: one octet too few, one that is the other side's, one of a layout that nobody has made yet. */
    print_answer("a record cut short", kondrivai_open(receiver, sizeof receiver - 1, air[2], SEALED, plain, sizeof plain), plain);
    print_answer("the sender's record", kondrivai_open(sender, sizeof sender, air[2], SEALED, plain, sizeof plain), plain);
    receiver[1] = 255;
    print_answer("another layout", kondrivai_open(receiver, sizeof receiver, air[2], SEALED, plain, sizeof plain), plain);
    receiver[1] = 1;
    print_answer("the third, found", kondrivai_open(receiver, sizeof receiver, air[2], SEALED, plain, sizeof plain), plain);
    print_longest(sender);
    return 0;
}
