/* Which library this is. scripts/build-domreth compiles this file into both libraries, and says what it cannot know:
 * SOURCES, a sum over the sources in crates/, and PROVED, 1 where all of them were proved for this build. */
#include "domreth.h"

/* The layouts that the library was compiled for, and that other languages declare by hand. */
#define HAS_SIZE(type, size) _Static_assert(sizeof(type) == (size), #type)
#define STANDS_AT(type, field, place) _Static_assert(offsetof(type, field) == (place), #type "." #field)
HAS_SIZE(void *, 8);
HAS_SIZE(size_t, 8);
HAS_SIZE(bool, 1);
HAS_SIZE(struct domreth_bytes, 16);
STANDS_AT(struct domreth_bytes, len, 8);
HAS_SIZE(struct domreth_field, 32);
STANDS_AT(struct domreth_field, value, 16);
HAS_SIZE(struct domreth_head, 56);
STANDS_AT(struct domreth_head, uri, 16);
STANDS_AT(struct domreth_head, headers, 32);
STANDS_AT(struct domreth_head, headers_len, 40);
STANDS_AT(struct domreth_head, version, 48);
HAS_SIZE(struct domreth_key, 64);
STANDS_AT(struct domreth_key, secret, 16);
STANDS_AT(struct domreth_key, region, 32);
STANDS_AT(struct domreth_key, service, 48);
HAS_SIZE(struct domreth_derived_key, 64);
STANDS_AT(struct domreth_derived_key, key, 16);
STANDS_AT(struct domreth_derived_key, region, 32);
STANDS_AT(struct domreth_derived_key, service, 48);
HAS_SIZE(struct domreth_desk, 8);
HAS_SIZE(struct domreth_moment, 16);
STANDS_AT(struct domreth_moment, nanos, 8);
HAS_SIZE(struct domreth_ticket, 40);
STANDS_AT(struct domreth_ticket, fresh, 8);
STANDS_AT(struct domreth_ticket, lasts, 24);
HAS_SIZE(struct domreth_reply, 48);
STANDS_AT(struct domreth_reply, cause, 1);
STANDS_AT(struct domreth_reply, wakes, 2);
STANDS_AT(struct domreth_reply, provider, 4);
STANDS_AT(struct domreth_reply, wake_handle, 8);
STANDS_AT(struct domreth_reply, wake_number, 16);
STANDS_AT(struct domreth_reply, number, 24);
STANDS_AT(struct domreth_reply, deadline, 32);

#define VERSION "0.4.0-dev"

uint32_t domreth_abi(void) { return DOMRETH_ABI; }

int domreth_is_proved(void) { return PROVED; }

const char *domreth_version(void) { return PROVED ? VERSION " " SOURCES " proved" : VERSION " " SOURCES " not-proved"; }
