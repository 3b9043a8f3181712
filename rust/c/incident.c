// The clinics' incident in C, on a journal in memory: an acknowledgement that comes after a restart, from before it, is refused (24).
// In the folder of a release:
//     cc -I include rust/c/incident.c lib/libninotskev_server.a lib/libninotskev_exports.a -o incident && ./incident
#include "ninotskev.h"
#include <stdio.h>
#include <stdlib.h>
#include <string.h>

enum { BLOCKS = 18, RECIPE = 7 };

static struct ninotskev_machine machine;
static struct ninotskev_numbers answer;
static uint8_t journal[BLOCKS * 512];

static void expect(uint64_t number, const char *what) {
    printf("%s: %llu\n", what, (unsigned long long)answer.at[0]);
    if (answer.at[0] != number) exit(1);
}

// A call of worker 0 that takes an offset and one more number.
static void ask(enum ninotskev_call call, uint64_t offset, uint64_t number) {
    ninotskev_ask(&machine, &answer, 0, call, offset, number, 0, 0, NULL, 0);
}

// Block by block. The second value of a step's answer is 1 after the last block. A server asks ninotskev_sync_due before each step whether
// to sync after it.
static void checkpoint(void) {
    ninotskev_begin(&machine, &answer, 0);
    expect(0, "begin");
    do ninotskev_step(&machine, &answer, journal, sizeof journal);
    while (answer.at[0] == 0 && answer.at[3] == 0);
    expect(0, "checkpoint");
}

int main(void) {
    if (ninotskev_abi() != NINOTSKEV_ABI || ninotskev_exports_abi() != NINOTSKEV_EXPORTS_ABI) return 1;
    if (ninotskev_abi_size(0) != sizeof machine || ninotskev_abi_size(2) != sizeof answer) return 1;
    if (ninotskev_crc32c((const uint8_t *)"123456789", 9) != 0xE3069283) return 1;

    struct ninotskev_configuration configuration;
    memset(&configuration, 0, sizeof configuration);
    configuration.settings.delivery.max_deliver = 5;
    configuration.settings.delivery.attempts_flush_redeliveries = 1;
    configuration.settings.rights[0] = 127; // all but the supervisor's mark
    configuration.lease.visibility_nanos = 30000000000;
    configuration.lease.hard_cap_nanos = 300000000000;

    ninotskev_start(&machine, &answer, &configuration, sizeof journal);
    expect(0, "start");
    checkpoint();
    ask(NINOTSKEV_CLAIM, RECIPE, 0);
    expect(0, "a worker claims");
    uint64_t sleeper = answer.at[2];

    ninotskev_off(&machine, &configuration);
    ninotskev_restart(&machine, &answer, journal, sizeof journal);
    expect(0, "restart");
    checkpoint();
    ask(NINOTSKEV_CLAIM, RECIPE, 0);
    expect(0, "another worker claims");
    uint64_t other = answer.at[2];
    ask(NINOTSKEV_ACK, RECIPE, sleeper);
    expect(NINOTSKEV_REFUSED_FENCED, "the first acknowledges");
    ask(NINOTSKEV_ACK, RECIPE, other);
    expect(0, "the other acknowledges");
    return 0;
}
