/*
 * Makes machines by typed calls, and prints the audit: with the word `life` that of examples/life.hv, and
 * with `others` that of the calls which aren't in it, which is in typed.out, typed by hand. What a call
 * puts out must stand where the caller wants it. With `lists` it makes calls of lists, longer than a page.
 */
#include "hvpm.h"

#include <inttypes.h>
#include <stdio.h>
#include <stdlib.h>
#include <string.h>

static const hvpm_caller root = {1, 0};
static hvpm_machine machine = HVPM_EMPTY;
static hvpm_reply reply;
static char line[HVPM_LINE];

/* The last arguments of each call. */
#define TOLD &reply, line, sizeof line

static void must(bool holds, const char *what) {
    if (holds) return;
    fprintf(stderr, "typed: %s\n", what);
    exit(1);
}

static void tell(uint32_t status) {
    must(status == HVPM_STATUS_OK, "it isn't done");
    fwrite(line, 1, reply.line_len, stdout);
}

static void boot(uint32_t pages, uint32_t pool) {
    const hvpm_config config = {.mask = 0xf700000044, .pages = pages, .pool = pool, .vps = 1};
    must(hvpm_boot(&machine, &config) == HVPM_STATUS_OK, "it doesn't boot");
}

/* ---- A life ---- */

/* A partition with five pages, a processor, and a port of the root's to which it may post. */
static uint64_t make(void) {
    const uint64_t pages[5] = {32, 33, 34, 35, 36};
    const hvpm_port port = {.partition = 1, .id = 5, .peer = 2, .type = HVPM_PORT_MESSAGES, .sint = 2};
    uint64_t child = 0;
    uint16_t at = 0;
    tell(hvpm_create_partition(&machine, root, 0, &child, TOLD));
    tell(hvpm_set_partition_property(&machine, root, child, HVPM_PRIVILEGE_FLAGS, 0x9200000000, TOLD));
    tell(hvpm_initialize_partition(&machine, root, child, TOLD));
    do {
        tell(hvpm_deposit_memory(&machine, root, child, pages, 5, at, TOLD));
        at = (uint16_t)reply.next;
    } while (reply.kind == HVPM_REPLY_MORE);
    tell(hvpm_create_vp(&machine, root, child, 0, TOLD));
    tell(hvpm_create_port(&machine, root, &port, TOLD));
    return child;
}

/* The partition posts, and the root takes the message. */
static void talk(uint64_t child) {
    const hvpm_caller by = {child, 0};
    const hvpm_connection connection = {child, 7, 1, 5, HVPM_PORT_MESSAGES};
    uint64_t id = 0, none = 0;
    tell(hvpm_write_msr(&machine, root, 0x40000080, 1, TOLD));
    tell(hvpm_write_msr(&machine, root, 0x40000083, 1, TOLD));
    tell(hvpm_write_msr(&machine, root, 0x40000092, 0x30, TOLD));
    tell(hvpm_get_partition_id(&machine, by, &id, TOLD));
    must(id == 2, "its id isn't 2");
    tell(hvpm_connect_port(&machine, by, &connection, TOLD));
    tell(hvpm_post_message(&machine, by, 7, 1, "hello", 5, TOLD));
    tell(hvpm_create_partition(&machine, by, 0, &none, TOLD));
    must(none == 0, "there is an id where the call is denied");
    tell(hvpm_take_interrupt(&machine, root, TOLD));
    tell(hvpm_read_slot(&machine, root, 2, TOLD));
    tell(hvpm_clear_slot(&machine, root, 2, TOLD));
    tell(hvpm_write_msr(&machine, root, 0x40000084, 0, TOLD));
}

static void weigh(uint64_t partition, uint64_t wanted_available, uint64_t wanted_in_use) {
    uint64_t available = 99, in_use = 99;
    tell(hvpm_get_memory_balance(&machine, root, partition, &available, &in_use, TOLD));
    must(available == wanted_available && in_use == wanted_in_use, "a balance isn't right");
}

static void life(void) {
    boot(64, 32);
    const uint64_t child = make();
    uint64_t id = 0;
    must(child == 2, "the child isn't 2");
    talk(child);
    weigh(child, 0, 5);
    tell(hvpm_finalize_partition(&machine, root, child, TOLD));
    weigh(child, 5, 0);
    tell(hvpm_delete_partition(&machine, root, child, TOLD));
    tell(hvpm_get_partition_id(&machine, (hvpm_caller){child, 0}, &id, TOLD));
    tell(hvpm_delete_port(&machine, root, 1, 5, TOLD));
    weigh(1, 28, 4);
}

/* ---- The other calls ---- */

static void read_properties(void) {
    static const struct {
        uint32_t property;
        uint64_t value;
    } properties[] = {{HVPM_PRIVILEGE_FLAGS, 0xf700000044},
                      {HVPM_CPU_RESERVE, 0},
                      {HVPM_CPU_CAP, 65536},
                      {HVPM_CPU_WEIGHT, 100}};
    uint64_t value = 99;
    for (size_t i = 0; i < 4; i++) {
        tell(hvpm_get_partition_property(&machine, root, HVPM_SELF, properties[i].property, &value, TOLD));
        must(value == properties[i].value, "a property isn't right");
    }
    tell(hvpm_get_partition_property(&machine, root, 9, HVPM_CPU_WEIGHT, &value, TOLD));
    must(value == 100, "a property is written where the call is denied");
}

static void withdraw(void) {
    uint64_t pages[2] = {99, 99};
    for (uint16_t at = 0; at < 2; at++)
        tell(hvpm_withdraw_memory(&machine, root, HVPM_SELF, pages, 2, at, TOLD));
    must(pages[0] == 0 && pages[1] == 1, "the pages aren't 0 and 1");
}

/* Two children, and which there are. */
static void ask_children(void) {
    uint64_t child = 99, previous = 0;
    for (int i = 0; i < 2; i++) tell(hvpm_create_partition(&machine, root, 0, &child, TOLD));
    for (uint64_t wanted = 2; wanted <= 4; wanted++) {
        tell(hvpm_get_next_child_partition(&machine, root, HVPM_SELF, previous, &child, TOLD));
        must(child == (wanted == 4 ? 0 : wanted), "a next child isn't right");
        previous = child;
    }
}

/* A second processor of the root, and registers of it. */
static void set_registers(void) {
    const hvpm_vp_register set[3] = {{0xA0010, 1}, {0xA0003, 0x33}, {0xA0012, 0xfedcba9876543211}};
    hvpm_vp_register got[2] = {{0x90003, 99}, {0xA0012, 99}};
    uint64_t value = 99;
    tell(hvpm_create_vp(&machine, root, HVPM_SELF, 1, TOLD));
    for (uint16_t at = 0; at < 3; at++)
        tell(hvpm_set_vp_registers(&machine, root, HVPM_SELF, 1, set, 3, at, TOLD));
    for (uint16_t at = 0; at < 2; at++)
        tell(hvpm_get_vp_registers(&machine, root, HVPM_SELF, 1, got, 2, at, TOLD));
    must(got[0].value == 1 && got[1].value == 0xfedcba9876543211, "registers aren't right");
    tell(hvpm_read_msr_value(&machine, (hvpm_caller){1, 1}, 0x40000093, &value, TOLD));
    must(value == 0x33, "an MSR isn't right");
    tell(hvpm_read_msr_value(&machine, root, 0x40000071, &value, TOLD));
    must(value == 0x33, "an MSR is written where there is a fault");
}

/* A port of flags 8 to 11 at the processor that is ready, which is the second. */
static void signal_flags(void) {
    const hvpm_port port = {.partition = HVPM_SELF,
                            .id = 6,
                            .peer = HVPM_SELF,
                            .type = HVPM_PORT_EVENTS,
                            .sint = 3,
                            .vp = HVPM_ANY_VP,
                            .base_flag = 8,
                            .flag_count = 4};
    const hvpm_connection connection = {HVPM_SELF, 8, HVPM_SELF, 6, HVPM_PORT_EVENTS};
    tell(hvpm_create_port(&machine, root, &port, TOLD));
    tell(hvpm_connect_port(&machine, root, &connection, TOLD));
    tell(hvpm_signal_event(&machine, root, 8, 3, TOLD));
    tell(hvpm_signal_event(&machine, root, 8, 4, TOLD));
    tell(hvpm_clear_flag(&machine, (hvpm_caller){1, 1}, 3, 11, TOLD));
    tell(hvpm_take_interrupt(&machine, (hvpm_caller){1, 1}, TOLD));
}

static void others(void) {
    boot(32, 16);
    read_properties();
    withdraw();
    ask_children();
    set_registers();
    signal_flags();
    tell(hvpm_disconnect_port(&machine, root, HVPM_SELF, 8, TOLD));
    tell(hvpm_delete_vp(&machine, root, HVPM_SELF, 1, TOLD));
    weigh(HVPM_SELF, 5, 9);
}

/* ---- Lists ---- */

enum { LIST = 600 };

static uint64_t pages[LIST];
static hvpm_vp_register registers[LIST];

/* What a list did: how many elements were served, and the kind and the rule of the last reply. */
static void did(const char *what, uint32_t status, size_t made, size_t wanted, uint32_t kind, uint32_t rule) {
    must(status == HVPM_STATUS_OK && made == wanted && reply.kind == kind && reply.rule == rule, what);
}

static void move_pages(void) {
    size_t made = 99;
    uint32_t status = hvpm_withdraw_pages(&machine, root, 1, pages, LIST, &made, &reply);
    did("pages come", status, made, LIST, HVPM_REPLY_SERVED, 0);
    for (uint64_t i = 0; i < LIST; i++) must(pages[i] == i, "the lowest pages come, in order");
    weigh(1, 396, 4);
    status = hvpm_deposit_pages(&machine, root, 1, pages, LIST, &made, &reply);
    did("pages go", status, made, LIST, HVPM_REPLY_SERVED, 0);
    weigh(1, 996, 4);
    for (uint64_t i = 0; i < LIST; i++) pages[i] = 1000 + i;
    pages[550] = 5000;
    status = hvpm_deposit_pages(&machine, root, 1, pages, LIST, &made, &reply);
    did("no such page", status, made, 550, HVPM_REPLY_DENIED, 21);
    weigh(1, 1546, 4);
    status = hvpm_deposit_pages(&machine, root, 1, pages, 1, &made, &reply);
    did("a page that isn't loose", status, made, 0, HVPM_REPLY_DENIED, 21);
    status = hvpm_deposit_pages(&machine, root, 1, NULL, 0, &made, &reply);
    did("no page", status, made, 0, HVPM_REPLY_DENIED, 5);
}

static void set_list(void) {
    size_t made = 99;
    for (uint32_t i = 0; i < LIST; i++) registers[i] = (hvpm_vp_register){0x20000 + i % 16, 7 * i};
    uint32_t status = hvpm_write_registers(&machine, root, 1, 0, registers, LIST, &made, &reply);
    did("registers are set", status, made, LIST, HVPM_REPLY_SERVED, 0);
    for (uint32_t i = 0; i < LIST; i++) registers[i].value = 0;
    status = hvpm_read_registers(&machine, root, 1, 0, registers, LIST, &made, &reply);
    did("registers are read", status, made, LIST, HVPM_REPLY_SERVED, 0);
    /* The last of them were set to 7 * 584 to 7 * 599, of which 592 is a multiple of 16. */
    for (uint32_t i = 0; i < LIST; i++)
        must(registers[i].value == 7 * (i % 16 < 8 ? 592 + i % 16 : 576 + i % 16), "a register isn't right");
    registers[300].name = 0x20012;
    status = hvpm_read_registers(&machine, root, 1, 0, registers, LIST, &made, &reply);
    did("no such register", status, made, 300, HVPM_REPLY_DENIED, 21);
}

/* A write of EOM that shows a message ends the list, so that its effect isn't lost. */
static void set_eom(void) {
    const hvpm_port port = {.partition = 1, .id = 1, .peer = 1, .type = HVPM_PORT_MESSAGES, .sint = 2};
    const hvpm_connection connection = {1, 1, 1, 1, HVPM_PORT_MESSAGES};
    size_t made = 99;
    for (uint32_t i = 0; i < 2; i++)
        must(hvpm_write_msr(&machine, root, i == 0 ? HVPM_MSR_SCONTROL : HVPM_MSR_SIMP, 1, &reply, NULL, 0) ==
                 HVPM_STATUS_OK, "it is ready");
    tell(hvpm_create_port(&machine, root, &port, TOLD));
    tell(hvpm_connect_port(&machine, root, &connection, TOLD));
    for (uint32_t i = 0; i < 2; i++) tell(hvpm_post_message(&machine, root, 1, 1, "hi", 2, TOLD));
    tell(hvpm_clear_slot(&machine, root, 2, TOLD));
    for (uint32_t i = 0; i < LIST; i++) registers[i] = (hvpm_vp_register){HVPM_REGISTER_RAX, i};
    registers[126].name = HVPM_REGISTER_EOM;
    uint32_t status = hvpm_write_registers(&machine, root, 1, 0, registers, LIST, &made, &reply);
    must(status == HVPM_STATUS_OK && made == 127 && reply.effect.kind == HVPM_EFFECT_SYNIC &&
             reply.effect.shown == 4, "EOM ends a list");
    status = hvpm_write_registers(&machine, root, 1, 0, registers + 127, LIST - 127, &made, &reply);
    did("the rest", status, made, LIST - 127, HVPM_REPLY_SERVED, 0);
}

static void lists(void) {
    boot(2000, 1000);
    move_pages();
    set_list();
    set_eom();
}

int main(int argc, char **argv) {
    must(argc == 2, "usage: typed life, typed others, or typed lists");
    if (strcmp(argv[1], "life") == 0)
        life();
    else if (strcmp(argv[1], "others") == 0)
        others();
    else
        lists();
    printf("events %" PRIu64 "\n", machine.events);
    hvpm_destroy(&machine);
    return 0;
}
