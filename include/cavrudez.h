/*
 * The functions that a C program may link from libexports.a, for set I, the cards in the field. docs/C.md says how to build.
 *
 * What each function answers and leaves is proved for every content of the areas that it is lent (crates/exports). A wrong
 * length is refused, and nothing needs to be tested before a call. What no proof can see is what C hands over. The caller owes:
 *
 *  - a pointer leads to as many items as its length says, or to one struct; it is aligned for them; and what lies there stays
 *    as it is for the whole call. Where the length is 0 it may be NULL. A pointer to a struct is never NULL.
 *  - what a function writes (a parameter that is not const) overlaps with nothing else that it is lent.
 *  - what a function writes is used by one thread at a time. Calls on other areas may run at the same time: the library keeps
 *    no state of its own, calls nothing but memcpy and memset, and allocates nothing.
 *
 * Nothing is kept of a pointer after the call.
 */
#ifndef CAVRUDEZ_H
#define CAVRUDEZ_H

#include <stddef.h>
#include <stdint.h>

#ifdef __cplusplus
extern "C" {
#endif

/* The sizes of set I. A public key's words are the polynomial a and then the polynomial t. */
#define CAVRUDEZ_DEGREE 512
#define CAVRUDEZ_MODULUS 8383489
#define CAVRUDEZ_KEY_WORDS 1024
#define CAVRUDEZ_RECORD_BYTES 2216
#define CAVRUDEZ_DIGEST_BYTES 32

/* A last counter of this number or more means that there is none. Counters are 0 to 65535. */
#define CAVRUDEZ_NO_COUNTER 65536

/* The numbers that a till answers. Its tests run in this order, and the first that hits is answered (docs/RULES.md). */
enum {
    CAVRUDEZ_ACCEPTED = 0,
    CAVRUDEZ_AREA_SIZE = 2,        /* the key has not CAVRUDEZ_KEY_WORDS words */
    CAVRUDEZ_NOT_RESIDUE = 3,      /* a word of the key is CAVRUDEZ_MODULUS or more; told with its index */
    CAVRUDEZ_RECORD_SIZE = 6,      /* the record is not of its size, or its length field says otherwise */
    CAVRUDEZ_KIND = 7,             /* the record is not of set I */
    CAVRUDEZ_OUT_OF_REACH = 8,     /* a coefficient of z lies too far from 0; told with its index, through z1 and then z2 */
    CAVRUDEZ_UNUSED_CODE = 9,      /* a coefficient of the challenge has the code that means nothing; told with its index */
    CAVRUDEZ_OTHER_CHALLENGE = 10, /* the hash gives another challenge */
    CAVRUDEZ_STALE = 24            /* the counter is not above the till's last: a replay, or an older record */
};

/*
 * A till. Its one number is the last counter that it accepted, or CAVRUDEZ_NO_COUNTER. Any number is a till's, so the struct may
 * be kept and put back; a till that is put back takes again what it took since.
 */
struct cavrudez_till {
    uint32_t last;
};

/* What a verdict tells beside its number. */
struct cavrudez_answer {
    size_t index;     /* of a refusal with 3, 8 or 9: the lowest index that fails; else 0 */
    uint16_t counter; /* of an accepted record: its counter; else 0 */
    uint8_t digest[CAVRUDEZ_DIGEST_BYTES]; /* of an accepted record: the digest that the card signed; else zeros */
};

/*
 * Opens a till over the caller's struct, whatever that held, with the last counter that the till took: CAVRUDEZ_NO_COUNTER for
 * a till that has accepted nothing.
 */
void cavrudez_till_open(struct cavrudez_till *till, uint32_t last);

/*
 * Shows the till a record, under the card's public key. The result is CAVRUDEZ_ACCEPTED or the number of the refusal, and
 * `answer` is written in both cases. A record is accepted exactly when the key is sound, the record passes plain verification
 * and its counter is above the till's last. The last counter then becomes the record's; a refusal changes nothing in the till.
 * The key is tested at each call, so one that went bad in memory is refused.
 */
uint8_t cavrudez_till_check(struct cavrudez_till *till, struct cavrudez_answer *answer, const uint32_t *key,
                            size_t key_len, const uint8_t *bytes, size_t bytes_len);

/* The till's last counter, or CAVRUDEZ_NO_COUNTER where it has none. */
uint32_t cavrudez_till_last(const struct cavrudez_till *till);

/* The verdict alone, of a till with that last counter. The result is as of cavrudez_till_check; the caller keeps the counter. */
uint8_t cavrudez_check(const uint32_t *key, size_t key_len, const uint8_t *bytes, size_t bytes_len, uint32_t last);

/*
 * Writes the product of two polynomials modulo x^512 + 1, and answers 0. Where an area has not CAVRUDEZ_DEGREE words, or a
 * factor has a word that is CAVRUDEZ_MODULUS or more, the answer is 1 and `out` stays as it was.
 */
uint8_t cavrudez_product(uint32_t *out, size_t out_len, const uint32_t *a, size_t a_len, const uint32_t *b, size_t b_len);

/* Fills `out` with the front of SHAKE256 of the message. */
void cavrudez_shake256(const uint8_t *message, size_t message_len, uint8_t *out, size_t out_len);

#ifdef __cplusplus
}
#endif

#endif
