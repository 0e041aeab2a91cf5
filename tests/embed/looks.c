/*
 * Looks at a machine: each shows what the event would put out that reads it, or what docs/POLICY.md says that
 * the events before made. What isn't there is told, and then nothing is written. No look is counted. What is
 * wrong goes to standard error.
 */
#include "hvpm.h"

#include <inttypes.h>
#include <stdio.h>
#include <string.h>

static int wrong;

static void holds(const char *what, bool is_so) {
    if (is_so) return;
    fprintf(stderr, "%s doesn't hold\n", what);
    wrong = 1;
}

static const hvpm_caller root = {1, 0}, guest = {2, 1}, nobody = {2, 0};

static hvpm_machine machine = HVPM_EMPTY;
static hvpm_reply reply;

/* An event that is served. */
static void served(const char *what, uint32_t status) {
    holds(what,
          status == HVPM_STATUS_OK && (reply.kind == HVPM_REPLY_SERVED || reply.kind == HVPM_REPLY_MORE));
}

/* An access that is taken, served or not. */
static void served_or_fault(uint32_t status) {
    holds("an access", status == HVPM_STATUS_OK);
}

static void write_msr(hvpm_caller by, uint32_t msr, uint64_t value) {
    served("a write", hvpm_write_msr(&machine, by, msr, value, &reply, NULL, 0));
}

/*
 * Partition 2 is Active below the root, with 10 pages in its pool, processor 1, the ports 5 and 7, and the
 * connection 6 to port 3 of the root. Partition 3 is Created below the root, and 4 Finalized below 2. SINT 2
 * of processor 2.1 shows one message, while another waits; flag 9 of its SINT 3 is set. They raised 0x32 and
 * 0x33.
 */
static void set_up(void) {
    static const hvpm_config config = {.mask = 0xf700000047, .pages = 64, .pool = 16, .vps = 1};
    static const uint64_t pages[] = {20, 21, 22, 23, 24, 25, 26, 27, 28, 29};
    static const hvpm_port ports[] = {{1, 3, 2, HVPM_PORT_MESSAGES, 0, 0, 0, 0},
                                      {2, 5, 1, HVPM_PORT_MESSAGES, 2, 1, 0, 0},
                                      {2, 7, 1, HVPM_PORT_EVENTS, 3, HVPM_ANY_VP, 8, 4}};
    static const hvpm_connection connections[] = {
        {1, 1, 2, 5, HVPM_PORT_MESSAGES}, {1, 2, 2, 7, HVPM_PORT_EVENTS}, {2, 6, 1, 3, HVPM_PORT_MESSAGES}};
    uint64_t id;
    holds("boot", hvpm_boot(&machine, &config) == HVPM_STATUS_OK);
    served("partition 2", hvpm_create_partition(&machine, root, 0, &id, &reply, NULL, 0));
    served("its mask", hvpm_set_partition_property(&machine, root, 2, HVPM_PRIVILEGE_FLAGS, 0xb100000044,
                                                   &reply, NULL, 0));
    served("its state", hvpm_initialize_partition(&machine, root, 2, &reply, NULL, 0));
    for (uint16_t i = 0; i < 10; i++)
        served("its pages", hvpm_deposit_memory(&machine, root, 2, pages, 10, i, &reply, NULL, 0));
    served("partition 3", hvpm_create_partition(&machine, root, 0, &id, &reply, NULL, 0));
    served("processor 2.1", hvpm_create_vp(&machine, root, 2, 1, &reply, NULL, 0));
    served("partition 4", hvpm_create_partition(&machine, guest, 0, &id, &reply, NULL, 0));
    served("its start", hvpm_initialize_partition(&machine, guest, 4, &reply, NULL, 0));
    served("its end", hvpm_finalize_partition(&machine, guest, 4, &reply, NULL, 0));
    for (size_t i = 0; i < 3; i++) {
        served("a port", hvpm_create_port(&machine, root, &ports[i], &reply, NULL, 0));
        served("a connection", hvpm_connect_port(&machine, root, &connections[(i + 2) % 3], &reply, NULL, 0));
    }
    write_msr(guest, 0x40000080, 1);
    write_msr(guest, 0x40000082, 1);
    write_msr(guest, 0x40000083, 1);
    write_msr(guest, 0x40000092, 0x32);
    write_msr(guest, 0x40000093, 0x33);
    served("a post", hvpm_post_message(&machine, root, 1, 0x77, "one", 3, &reply, NULL, 0));
    served("another", hvpm_post_message(&machine, root, 1, 0x78, "two", 3, &reply, NULL, 0));
    served("a signal", hvpm_signal_event(&machine, root, 2, 1, &reply, NULL, 0));
}

/* ---- At a processor ---- */

/* Whether each byte is one that nothing was written to. */
static bool is_untouched(const void *at, size_t size) {
    for (size_t i = 0; i < size; i++)
        if (((const uint8_t *)at)[i] != 0xA5) return false;
    return true;
}

static void look_at_slots(void) {
    uint8_t out[256], shown[16][256];
    for (uint8_t sint = 0; sint < 16; sint++)
        holds("a slot is shown", hvpm_peek_slot(&machine, guest, sint, shown[sint]) == HVPM_STATUS_OK);
    holds("the message", memcmp(shown[2], "\x77\0\0\0\x03\x01\0\0\x05\0\0\0\0\0\0\0one", 20) == 0);
    for (uint8_t sint = 0; sint < 16; sint++) {
        served("a slot is read", hvpm_read_slot(&machine, guest, sint, &reply, NULL, 0));
        holds("a slot shows what is read", memcmp(shown[sint], reply.output, 256) == 0);
    }
    memset(out, 0xA5, sizeof out);
    holds("there are 16 SINTs", hvpm_peek_slot(&machine, guest, 16, out) == HVPM_STATUS_NONE);
    holds("there is no SINT 255", hvpm_peek_slot(&machine, guest, 255, out) == HVPM_STATUS_NONE);
    holds("no processor has a slot", hvpm_peek_slot(&machine, nobody, 2, out) == HVPM_STATUS_NONE);
    holds("nothing is written of a slot that isn't there", is_untouched(out, sizeof out));
}

static void look_at_flags(void) {
    uint8_t out[256], shown[16][256];
    for (uint8_t sint = 0; sint < 16; sint++)
        holds("flags are shown", hvpm_peek_flags(&machine, guest, sint, shown[sint]) == HVPM_STATUS_OK);
    holds("the flag", shown[3][1] == 2);
    for (uint8_t sint = 0; sint < 16; sint++) {
        served("flags are read", hvpm_read_flags(&machine, guest, sint, &reply, NULL, 0));
        holds("flags show what is read", memcmp(shown[sint], reply.output, 256) == 0);
    }
    memset(out, 0xA5, sizeof out);
    holds("there are 16 SINTs of flags", hvpm_peek_flags(&machine, guest, 16, out) == HVPM_STATUS_NONE);
    holds("no processor has flags", hvpm_peek_flags(&machine, nobody, 3, out) == HVPM_STATUS_NONE);
    holds("nothing is written of flags that aren't there", is_untouched(out, sizeof out));
}

/* Each number that is a register of the guest's, and each around them. */
static void look_at_msrs(void) {
    static const hvpm_caller other = {3, 0};
    unsigned known = 0;
    for (uint32_t msr = 0x3FFFFFF0; msr < 0x40000200; msr++) {
        uint64_t shown = 0xA5, read = 0xA5;
        const uint32_t status = hvpm_peek_msr(&machine, guest, msr, &shown);
        served_or_fault(hvpm_read_msr_value(&machine, guest, msr, &read, &reply, NULL, 0));
        const bool is_there = reply.rule != 25;
        holds("which registers there are", hvpm_is_msr(msr) == is_there);
        holds("a register is shown where it is there",
              status == (is_there ? HVPM_STATUS_OK : HVPM_STATUS_NONE));
        holds("a register shows what is read", reply.kind == HVPM_REPLY_FAULT || shown == read);
        holds("nothing is written of a register that isn't there", is_there || shown == 0xA5);
        known += is_there;
    }
    uint64_t value = 0;
    holds("there are 22 registers", known == 22);
    holds("SINT 2", hvpm_peek_msr(&machine, guest, 0x40000092, &value) == HVPM_STATUS_OK && value == 0x32);
    holds("no processor has one", hvpm_peek_msr(&machine, nobody, 0x40000092, &value) == HVPM_STATUS_NONE);
    holds("nor has a partition without",
          hvpm_peek_msr(&machine, other, 0x40000092, &value) == HVPM_STATUS_NONE);
}

/* The two vectors, and then without the highest. */
static void look_at_pending(void) {
    uint64_t out[4] = {9, 9, 9, 9};
    holds("no processor has vectors",
          hvpm_peek_pending(&machine, nobody, out) == HVPM_STATUS_NONE && out[0] == 9);
    holds("vectors are shown", hvpm_peek_pending(&machine, guest, out) == HVPM_STATUS_OK);
    holds("vectors 0x32 and 0x33",
          out[0] == UINT64_C(3) << 0x32 && out[1] == 0 && out[2] == 0 && out[3] == 0);
    served("one is taken", hvpm_take_interrupt(&machine, guest, &reply, NULL, 0));
    holds("the highest is taken", reply.output[0] == 0x33);
    holds("the other is shown",
          hvpm_peek_pending(&machine, guest, out) == HVPM_STATUS_OK && out[0] == UINT64_C(1) << 0x32);
}

/* ---- At partitions ---- */

static void is_partition(uint64_t id, hvpm_partition wanted) {
    hvpm_partition shown;
    memset(&shown, 0, sizeof shown);
    holds("a partition is shown", hvpm_peek_partition(&machine, id, &shown) == HVPM_STATUS_OK);
    if (shown.mask == wanted.mask && shown.parent == wanted.parent && shown.depth == wanted.depth &&
        shown.pooled == wanted.pooled && shown.in_use == wanted.in_use && shown.life == wanted.life &&
        shown.children == wanted.children && shown.vps == wanted.vps && shown.ports == wanted.ports &&
        shown.connections == wanted.connections)
        return;
    fprintf(stderr,
            "partition %" PRIu64 ": mask %" PRIx64 " parent %" PRIu64 " depth %" PRIu64 " pooled %" PRIu64
            " in use %" PRIu64 " life %" PRIu32 " children %" PRIu32 " vps %" PRIu32 " ports %" PRIu32
            " connections %" PRIu32 "\n",
            id, shown.mask, shown.parent, shown.depth, shown.pooled, shown.in_use, shown.life, shown.children,
            shown.vps, shown.ports, shown.connections);
    wrong = 1;
}

/* A child uses 2 pages of the pool, a processor 4, and a port and a connection 1 each. */
static void look_at_partitions(void) {
    hvpm_partition out;
    is_partition(1, (hvpm_partition){0xf700000047, 0, 0, 16, 11, HVPM_LIFE_ACTIVE, 2, 1, 1, 2});
    is_partition(2, (hvpm_partition){0xb100000044, 1, 1, 10, 9, HVPM_LIFE_ACTIVE, 1, 1, 2, 1});
    is_partition(3, (hvpm_partition){0x3000000044, 1, 1, 0, 0, HVPM_LIFE_CREATED, 0, 0, 0, 0});
    is_partition(4, (hvpm_partition){0x3000000044, 2, 2, 0, 0, HVPM_LIFE_FINALIZED, 0, 0, 0, 0});
    memset(&out, 0xA5, sizeof out);
    holds("there is no partition 5", hvpm_peek_partition(&machine, 5, &out) == HVPM_STATUS_NONE);
    holds("there is no partition 0", hvpm_peek_partition(&machine, 0, &out) == HVPM_STATUS_NONE);
    holds("no id is the caller's own", hvpm_peek_partition(&machine, HVPM_SELF, &out) == HVPM_STATUS_NONE);
    holds("nothing is written of no partition", is_untouched(&out, sizeof out));
}

static bool is_child_after(uint64_t parent, uint64_t previous, uint64_t child) {
    uint64_t shown = 0xA5;
    return hvpm_child_after(&machine, parent, previous, &shown) == HVPM_STATUS_OK && shown == child;
}

static void look_at_children(void) {
    uint64_t child = 0xA5;
    holds("the root's children", is_child_after(1, 0, 2) && is_child_after(1, 2, 3) &&
                                     is_child_after(1, 3, 0) && is_child_after(1, 1, 2));
    holds("those of others", is_child_after(2, 0, 4) && is_child_after(2, 4, 0) && is_child_after(3, 0, 0));
    holds("no partition has none",
          hvpm_child_after(&machine, 5, 0, &child) == HVPM_STATUS_NONE && child == 0xA5);
}

static void look_at_pages(void) {
    uint64_t owner = 0xA5;
    for (uint64_t page = 0; page < 64; page++) {
        holds("a page has an owner", hvpm_page_owner(&machine, page, &owner) == HVPM_STATUS_OK);
        holds("its owner", owner == (page >= 20 && page < 30 ? 2 : 1));
    }
    owner = 0xA5;
    holds("there is no page 64", hvpm_page_owner(&machine, 64, &owner) == HVPM_STATUS_NONE);
    holds("numbers are whole", hvpm_page_owner(&machine, UINT64_C(1) << 32, &owner) == HVPM_STATUS_NONE);
    holds("nothing is written of no page", owner == 0xA5);
}

/* ---- What a partition has ---- */

typedef uint32_t next_number(const hvpm_machine *, uint64_t, uint32_t, uint32_t *);

/* Whether a partition has these numbers and no more, in this order, also where the list begins elsewhere. */
static bool has_numbers(next_number *after, uint64_t partition, size_t count, const uint32_t *numbers) {
    uint32_t number = HVPM_FIRST;
    for (size_t i = 0; i < count; i++) {
        if (after(&machine, partition, number, &number) != HVPM_STATUS_OK || number != numbers[i]) return false;
        for (uint32_t low = i == 0 ? 0 : numbers[i - 1]; low < numbers[i]; low++) {
            uint32_t found = 0xA5;
            if (after(&machine, partition, low, &found) != HVPM_STATUS_OK || found != numbers[i]) return false;
        }
    }
    const uint32_t last = number;
    return after(&machine, partition, last, &number) == HVPM_STATUS_NONE && number == last &&
           after(&machine, partition, UINT32_MAX - 1, &number) == HVPM_STATUS_NONE && number == last;
}

static void list_numbers(void) {
    static const uint32_t zero[] = {0}, one_two[] = {1, 2}, three[] = {3}, five_seven[] = {5, 7}, six[] = {6};
    holds("the root's processor", has_numbers(hvpm_vp_after, 1, 1, zero));
    holds("the processor of 2", has_numbers(hvpm_vp_after, 2, 1, one_two));
    holds("the root's port", has_numbers(hvpm_port_after, 1, 1, three));
    holds("the ports of 2", has_numbers(hvpm_port_after, 2, 2, five_seven));
    holds("the root's connections", has_numbers(hvpm_connection_after, 1, 2, one_two));
    holds("the connection of 2", has_numbers(hvpm_connection_after, 2, 1, six));
    for (uint64_t partition = 3; partition < 6; partition++)
        holds("others have none", has_numbers(hvpm_vp_after, partition, 0, NULL) &&
                                      has_numbers(hvpm_port_after, partition, 0, NULL) &&
                                      has_numbers(hvpm_connection_after, partition, 0, NULL));
}

static bool is_run(uint64_t partition, uint64_t previous, hvpm_page_run wanted) {
    hvpm_page_run run = {0xA5, 0, 0};
    return hvpm_page_after(&machine, partition, previous, &run) == HVPM_STATUS_OK && run.page == wanted.page &&
           run.count == wanted.count && run.pooled == wanted.pooled;
}

/* The root has pages 0 to 15 in its pool, and 16 to 19 and 30 to 63 loose; partition 2 has 20 to 29. */
static void list_pages(void) {
    static const uint64_t beyond[] = {63, 64, 65535, 65536, UINT64_C(1) << 32, UINT64_MAX};
    hvpm_page_run run;
    memset(&run, 0xA5, sizeof run);
    holds("the root's pool", is_run(1, HVPM_FIRST, (hvpm_page_run){0, 16, 1}));
    holds("what is left of it", is_run(1, 0, (hvpm_page_run){1, 15, 1}) &&
                                    is_run(1, 14, (hvpm_page_run){15, 1, 1}));
    holds("its loose pages", is_run(1, 15, (hvpm_page_run){16, 4, 0}) &&
                                 is_run(1, 19, (hvpm_page_run){30, 34, 0}) &&
                                 is_run(1, 25, (hvpm_page_run){30, 34, 0}));
    holds("another's pages", is_run(2, HVPM_FIRST, (hvpm_page_run){20, 10, 1}) &&
                                 is_run(2, 28, (hvpm_page_run){29, 1, 1}));
    for (size_t i = 0; i < sizeof beyond / sizeof *beyond; i++)
        holds("no page is beyond", hvpm_page_after(&machine, 1, beyond[i], &run) == HVPM_STATUS_NONE);
    for (uint64_t partition = 3; partition < 6; partition++)
        holds("others have none",
              hvpm_page_after(&machine, partition, HVPM_FIRST, &run) == HVPM_STATUS_NONE);
    holds("nothing is written of no run", is_untouched(&run, sizeof run));
}

static void look_at_ports(void) {
    hvpm_port port;
    hvpm_connection connection;
    holds("port 5 is there", hvpm_peek_port(&machine, 2, 5, &port) == HVPM_STATUS_OK);
    holds("port 5", port.partition == 2 && port.id == 5 && port.peer == 1 &&
                        port.type == HVPM_PORT_MESSAGES && port.sint == 2 && port.vp == 1 &&
                        port.base_flag == 0 && port.flag_count == 0);
    holds("port 7 is there", hvpm_peek_port(&machine, 2, 7, &port) == HVPM_STATUS_OK);
    holds("port 7", port.partition == 2 && port.id == 7 && port.peer == 1 && port.type == HVPM_PORT_EVENTS &&
                        port.sint == 3 && port.vp == HVPM_ANY_VP && port.base_flag == 8 &&
                        port.flag_count == 4);
    holds("connection 6 is there", hvpm_peek_connection(&machine, 2, 6, &connection) == HVPM_STATUS_OK);
    holds("connection 6", connection.partition == 2 && connection.id == 6 && connection.port_partition == 1 &&
                              connection.port == 3 && connection.type == HVPM_PORT_MESSAGES);
    memset(&port, 0xA5, sizeof port);
    memset(&connection, 0xA5, sizeof connection);
    holds("no partition's port 7", hvpm_peek_port(&machine, 5, 7, &port) == HVPM_STATUS_NONE);
    holds("another partition's port 7", hvpm_peek_port(&machine, 1, 7, &port) == HVPM_STATUS_NONE);
    holds("another partition's connection 6",
          hvpm_peek_connection(&machine, 1, 6, &connection) == HVPM_STATUS_NONE);
    holds("a port is no connection", hvpm_peek_connection(&machine, 2, 5, &connection) == HVPM_STATUS_NONE);
    holds("nothing is written of what isn't there",
          is_untouched(&port, sizeof port) && is_untouched(&connection, sizeof connection));
}

static void look_at_table(void) {
    static const char wanted[] =
        "partition 1 parent - Active mask 000000f700000047 loose 38 pooled 16 inuse 11"
        " vps 1 ports 1 connections 2\n"
        "partition 2 parent 1 Active mask 000000b100000044 loose 0 pooled 10 inuse 9"
        " vps 1 ports 2 connections 1\n"
        "partition 3 parent 1 Created mask 0000003000000044 loose 0 pooled 0 inuse 0"
        " vps 0 ports 0 connections 0\n"
        "partition 4 parent 2 Finalized mask 0000003000000044 loose 0 pooled 0 inuse 0"
        " vps 0 ports 0 connections 0\n"
        "pages 64\n";
    char text[sizeof wanted];
    size_t len = 0;
    holds("the table's length",
          hvpm_table(&machine, NULL, 0, &len) == HVPM_STATUS_SHORT && len == sizeof wanted - 1);
    memset(text, 0xA5, sizeof text);
    len = 0;
    holds("a byte less", hvpm_table(&machine, text, sizeof wanted - 2, &len) == HVPM_STATUS_SHORT &&
                             len == sizeof wanted - 1);
    holds("nothing is written of it", is_untouched(text, sizeof text));
    holds("just its bytes",
          hvpm_table(&machine, text, len, &len) == HVPM_STATUS_OK && len == sizeof wanted - 1);
    holds("the table", memcmp(text, wanted, len) == 0 && is_untouched(text + len, 1));
}

/* ---- For CPUID and exits ---- */

static void look_at_features(void) {
    uint32_t out[4] = {9, 9, 9, 9};
    unsigned calls = 0;
    holds("there is no leaf of no partition",
          hvpm_features(&machine, 5, out) == HVPM_STATUS_NONE && out[0] == 9);
    holds("the leaf of partition 2", hvpm_features(&machine, 2, out) == HVPM_STATUS_OK);
    holds("its registers", out[0] == 0x44 && out[1] == 0xb1 && out[2] == 0 && out[3] == 0);
    for (uint32_t code = 0; code < 0x10000; code++) calls += hvpm_is_call((uint16_t)code);
    holds("there are 21 calls",
          calls == 21 && hvpm_is_call(0x40) && hvpm_is_call(0x96) && !hvpm_is_call(0x4B));
}

int main(void) {
    set_up();
    const uint64_t events = machine.events;
    look_at_partitions();
    look_at_children();
    look_at_pages();
    look_at_ports();
    list_numbers();
    list_pages();
    look_at_table();
    look_at_features();
    holds("that no look is counted", machine.events == events);
    look_at_slots();
    look_at_flags();
    look_at_msrs();
    look_at_pending();
    hvpm_destroy(&machine);
    return wrong;
}
