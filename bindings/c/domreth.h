/* Requests signed for AWS, links made and checked, and the commands of `signctl` over lines, in this process. Link with
 * bindings/lib/libdomreth.a, or with libdomreth.so beside it; `scripts/build-domreth` makes both, and
 * `scripts/install-domreth` puts them where `pkg-config domreth` finds them.
 *
 * Who owns what. All that is handed to a call is the caller's, is lent to it until it returns, and is kept nowhere.
 * A call writes to `output` and `needed` alone, and holds nothing between calls: but a desk, which is below.
 *
 * Pointers. A pointer to a row of bytes or of headers may be null where its length is 0, and be to anything there. No
 * other pointer is null. `output` and `needed` lie apart from all else that the call is handed. Bytes need not be
 * UTF-8, and end by no zero.
 *
 * Threads. Calls may run side by side. No call from a signal handler, and none from the forked child of a process
 * with threads. malloc, realloc and free are of one allocator, and no call aborts: but in a library that is not proved,
 * where a failed check of its own ends the process by a trap.
 *
 * Secrets. What a call copies of a secret it frees, and does not wipe. A derived key that is handed over is the caller's,
 * and a secret, too: keep it out of logs, and wipe it once its day is over. */
#ifndef DOMRETH_H
#define DOMRETH_H

#include <stdbool.h>
#include <stddef.h>
#include <stdint.h>

#ifdef __cplusplus
extern "C" {
#endif

/* ---- Which library this is */

/* The ABI that this header declares: the calls, their structures and their numbers. It rises where a program that was
 * compiled before would be wrong, and with it the name that the shared library is loaded by: libdomreth.so.1. Other
 * languages, which do not read this header, compare the number that they know with domreth_abi(). */
#define DOMRETH_ABI 1
uint32_t domreth_abi(void);

/* Three words: the version, a sum over the sources, and `proved` or `not-proved`. It stays where it is, and is not freed. */
const char *domreth_version(void);

/* 1 where each function of the library was proved before it was compiled, and 0 where it was compiled without a proof, by
 * `scripts/build-domreth --unproved`. That it was so is the word of the script, and nothing that a program can check. */
int domreth_is_proved(void);

/* ---- Heads and lines */

/* The status of a call. At DOMRETH_DONE and DOMRETH_BAD_LINE `output` begins with the text, `needed` is its length, and
 * behind it `output` is as before. At DOMRETH_NO_ROOM the text does not fit and `needed` is its length; at each other
 * one there is no text and `needed` is 0; and then `output` is as before. A text is a function of what the call is
 * handed, so after DOMRETH_NO_ROOM a call with room for `needed` bytes does not say so again. */
enum {
    DOMRETH_DONE = 0,
    DOMRETH_USAGE = 2,    /* domreth_run: no command that reads lines has this name */
    DOMRETH_BAD_LINE = 3, /* domreth_run: a line is bad, or the input too long. The text's end says so */
    DOMRETH_NO_ROOM = 5,
    DOMRETH_OUT_OF_MEMORY = 6, /* an allocation failed */

    /* What is given does not fit. Of these and the next the first that holds is the status, from top to bottom. */
    DOMRETH_PAYLOAD = 10, /* the payload is neither UNSIGNED-PAYLOAD nor 64 digits from 0-9a-f */
    DOMRETH_SECOND = 11,  /* no moment lies so many seconds after the start of 1970: the last is at the end of 9999 */
    DOMRETH_VERSION = 12, /* no version of HTTP has this number */
    DOMRETH_KEY = 13,     /* the access key is empty or has a byte other than 0x21 to 0x7e, or the secret is empty, or the
                             derived key has not 32 bytes */
    DOMRETH_SCOPE = 14,   /* the region or the service is empty, or has a byte other than a-z, 0-9 and - */

    /* The head is not signed, or its link not made. */
    DOMRETH_HEAD = 20,      /* the method, the URI or a header is none of HTTP */
    DOMRETH_AUTHORITY = 21, /* the URI names no authority */
    DOMRETH_PATH = 22,      /* the path has a %, and the service is not s3 */
    DOMRETH_MOMENT = 23,    /* the moment lies before the year 0 */
    DOMRETH_ALREADY = 24,   /* the query has a key of a link already */
    DOMRETH_EXPIRES = 25,   /* the link would be good for no second, or for more than seven days */
    DOMRETH_LINK = 26,      /* the link is no URI, as where it is longer than 65,534 bytes */

    /* The link is not valid. Tell a sender of DOMRETH_SIGNATURE only that it is none of this key's. */
    DOMRETH_SHAPE = 30,      /* the query is not that of a link */
    DOMRETH_CREDENTIAL = 31, /* the link is for another access key, region, service or day */
    DOMRETH_EARLY = 32,      /* it is not good yet */
    DOMRETH_LATE = 33,       /* it is not good any more */
    DOMRETH_SIGNATURE = 34,  /* its signature is another one */

    /* A call on a desk. */
    DOMRETH_CLOSED = 40,   /* the desk is closed */
    DOMRETH_FULL = 41,     /* it has as many of these as it may have: 4,294,967,295 */
    DOMRETH_BEGUN = 42,    /* a call was begun before, so that nothing is added any more */
    DOMRETH_NO_CACHE = 43, /* there is no such cache */
    DOMRETH_NO_RULE = 44,  /* there is no such rule */
    DOMRETH_OPEN = 45,     /* the desk is open already */
    DOMRETH_EMPTY = 46     /* the cache holds no credential */
};

struct domreth_bytes {
    const uint8_t *at;
    size_t len;
};

struct domreth_field {
    struct domreth_bytes name, value;
};

/* A request head. The version of HTTP is ten times its major number and its minor one: 9, 10, 11, 20 or 30. */
struct domreth_head {
    struct domreth_bytes method, uri;
    const struct domreth_field *headers;
    size_t headers_len;
    uint8_t version;
};

/* An access key with its secret, and the region and the service to sign for. */
struct domreth_key {
    struct domreth_bytes access, secret, region, service;
};

/* Signs the head in its headers, as AWS Signature Version 4 has it, at so many seconds after the start of 1970. The text
 * is the headers that the signature adds, a line of HTTP/1.1 each (name, colon, space, value, CR, LF): `host` where the
 * head has none, `x-amz-date` and `authorization`. Send them behind the head's own headers, but for those of the last
 * two names, which they replace. The payload is the SHA-256 of the content in lower-case hexadecimal, or
 * UNSIGNED-PAYLOAD. What else is to be signed is in the head before: `x-amz-security-token` of a session, and for S3
 * `x-amz-content-sha256` with the payload. */
uint8_t domreth_sign(const struct domreth_head *head, const struct domreth_key *key, const uint8_t *payload,
                     size_t payload_len, int64_t second, uint8_t *output, size_t output_len, size_t *needed);

/* The signing key that was derived of a secret for one day in UTC, one region and one service, with the access key that
 * stands before that secret. */
struct domreth_derived_key {
    struct domreth_bytes access, key, region, service;
};

/* Derives that key for the day of the moment. The text is its DOMRETH_KEY_BYTES bytes, whichever these are: who has them
 * can sign for that day, region and service, and for nothing else. The status is never DOMRETH_NO_ROOM where there is
 * room for so many. */
enum { DOMRETH_KEY_BYTES = 32 };
uint8_t domreth_derive_key(const struct domreth_key *key, int64_t second, uint8_t *output, size_t output_len,
                           size_t *needed);

/* Does what domreth_sign does, under a derived key: the text is the same where the key was derived for the moment's day.
 * Whether it was is not asked, and no server accepts what is signed on another day: derive a key a day. The order of
 * causes is that of domreth_sign. */
uint8_t domreth_sign_with(const struct domreth_head *head, const struct domreth_derived_key *derived,
                          const uint8_t *payload, size_t payload_len, int64_t second, uint8_t *output,
                          size_t output_len, size_t *needed);

/* Makes a link, which is the text: by it whoever has it can send this request for so many seconds from the moment on.
 * Of the headers the host alone is signed. The token of a session is in the query before, as X-Amz-Security-Token. */
uint8_t domreth_presign(const struct domreth_head *head, const struct domreth_key *key, uint32_t expires, int64_t second,
                        uint8_t *output, size_t output_len, size_t *needed);

/* Checks the head's URI, which names the authority, as such a link at the moment: DOMRETH_DONE where it is valid. */
uint8_t domreth_verify(const struct domreth_head *head, const struct domreth_key *key, int64_t second);

/* Runs the command of this name (script, hmac, view, grant, sigv4 or audit) over the whole input. The text is what
 * the program writes to standard output. */
uint8_t domreth_run(const uint8_t *command, size_t command_len, const uint8_t *input, size_t input_len,
                    uint8_t *output, size_t output_len, size_t *needed);

/* ---- A desk
 *
 * Many calls need a credential that expires. A desk says who asks a provider for one, who waits, and who is next: each
 * event is told to it by a call, and it answers by a reply. It asks nobody, keeps no secret and no request, has no clock
 * and starts no thread: its credentials are numbers of the caller's, with the moments until which they are good, and
 * the caller keeps what stands behind them, asks the providers, signs, and polls the calls that a reply wakes.
 *
 * Who owns what. A `struct domreth_desk` is the caller's, and begins as {NULL}: closed. Once it is open it owns what is
 * behind `at`, until it is closed. Nobody else reads or writes `at`, and it is not copied: a copy that is used is a
 * double free, and a desk that is let go while it is open is a leak. Calls on one desk come one after another, in any
 * thread that is ordered by a lock or a join; calls on two desks may run side by side.
 *
 * What stands at `reply`, `number` and `ticket` is any value of its type before, as {0}. It is written at DOMRETH_DONE
 * alone. At every other status the desk is as it was, too. */
struct domreth_desk {
    void *at;
};

/* So many seconds after the start of 1970, and so many nanoseconds. One of the years from -9999 to 9999 in UTC. */
struct domreth_moment {
    int64_t second;
    int32_t nanos;
};

/* A credential, by the number that the caller knows it by. It is handed out before the moment `fresh`, and it lasts to
 * each moment before `lasts`. */
struct domreth_ticket {
    uint64_t number;
    struct domreth_moment fresh, lasts;
};

/* The kinds of a reply. */
enum {
    DOMRETH_REPLY_BEGUN = 0,
    DOMRETH_REPLY_PENDING = 1,       /* the call waits, and is polled again once it is woken */
    DOMRETH_REPLY_NOT_NOW = 2,       /* the event has no place here, and changed nothing */
    DOMRETH_REPLY_OUT_OF_MEMORY = 3, /* at a begin alone: the call is not begun */
    DOMRETH_REPLY_ASK = 4,           /* ask `provider`, and tell what it has by found, missing or failed */
    DOMRETH_REPLY_SIGN = 5,          /* sign with the credential `number`, and tell by accept or reject */
    DOMRETH_REPLY_REFUSED = 6,       /* the call is over, for the cause `cause` */
    DOMRETH_REPLY_DONE = 7,          /* the call is over */
    DOMRETH_REPLY_CANCELLED = 8      /* the call is over */
};

/* Why a call is refused. */
enum {
    DOMRETH_CAUSE_MISSING = 1, /* no provider has a credential */
    DOMRETH_CAUSE_SHORT = 2,   /* the credential does not last to `deadline` */
    DOMRETH_CAUSE_RANGE = 3,   /* the deadline would be no moment */
    DOMRETH_CAUSE_LOADER = 4,  /* the provider failed: `number` is the failure */
    DOMRETH_CAUSE_SERVICE = 5  /* the service failed: `number` is the failure */
};

/* A reply. What its kind does not speak of is 0. Where it wakes a call, the caller polls that call. */
struct domreth_reply {
    uint8_t kind, cause;
    bool wakes;
    uint32_t provider, wake_handle;
    uint64_t wake_number, number;
    struct domreth_moment deadline;
};

/* Opens a desk that is closed: it has no caches, rules, handles or calls. */
uint8_t domreth_desk_open(struct domreth_desk *desk);

/* Adds a cache, a rule or a handle, and hands its number out: the first has 0, and each next one more. A cache has one
 * provider where `providers` is 0, and else a chain of so many, asked from 0 on until one has a credential. By a rule a
 * credential has to last so much longer than to the end of the operation (the nanoseconds are less than 10^9, or the
 * status is DOMRETH_SECOND). Calls are made under a handle, which is a cache and a rule. */
uint8_t domreth_desk_add_cache(struct domreth_desk *desk, uint32_t providers, uint32_t *number);
uint8_t domreth_desk_add_rule(struct domreth_desk *desk, uint64_t margin_seconds, uint32_t margin_nanos,
                              uint32_t *number);
uint8_t domreth_desk_add_handle(struct domreth_desk *desk, uint32_t cache, uint32_t rule, uint32_t *number);

/* Begins a call, whose operation takes so long where `lasts` says that it says so (nanoseconds as above). Under one handle
 * the numbers of calls rise. */
uint8_t domreth_desk_begin(struct domreth_desk *desk, uint32_t handle, uint64_t number, bool lasts, uint64_t seconds,
                           uint32_t nanos, struct domreth_reply *reply);

/* Asks for the next step of a call. DOMRETH_SECOND, here and below: a moment that is given is none. */
uint8_t domreth_desk_poll(struct domreth_desk *desk, uint32_t handle, uint64_t number, const struct domreth_moment *now,
                          struct domreth_reply *reply);

/* What the provider that the call was told to ask has: a credential, none, or a failure by a number of the caller's. */
uint8_t domreth_desk_found(struct domreth_desk *desk, uint32_t handle, uint64_t number, const struct domreth_moment *now,
                           const struct domreth_ticket *ticket, struct domreth_reply *reply);
uint8_t domreth_desk_missing(struct domreth_desk *desk, uint32_t handle, uint64_t number,
                             const struct domreth_moment *now, struct domreth_reply *reply);
uint8_t domreth_desk_failed(struct domreth_desk *desk, uint32_t handle, uint64_t number, const struct domreth_moment *now,
                            uint64_t failure, struct domreth_reply *reply);

/* The call that was told to sign is signed, or its service failed, by a number of the caller's. */
uint8_t domreth_desk_accept(struct domreth_desk *desk, uint32_t handle, uint64_t number, struct domreth_reply *reply);
uint8_t domreth_desk_reject(struct domreth_desk *desk, uint32_t handle, uint64_t number, uint64_t failure,
                            struct domreth_reply *reply);

/* The call is given up. */
uint8_t domreth_desk_cancel(struct domreth_desk *desk, uint32_t handle, uint64_t number, struct domreth_reply *reply);

/* Hands out the credential that a cache holds, fresh or not. */
uint8_t domreth_desk_cached(struct domreth_desk *desk, uint32_t cache, struct domreth_ticket *ticket);

/* Closes a desk and frees what it owns. A closed one stays closed. */
void domreth_desk_close(struct domreth_desk *desk);

#ifdef __cplusplus
}
#endif
#endif
