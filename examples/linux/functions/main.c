/*
 * Linux as the root, without a guest: functions of its own root driver, in a program over the library. They
 * make a partition with its memory, processors, ports and connections, and end it. `../run functions` takes
 * them from Debian's source of Linux, unchanged; kernel.h has what they need of the kernel. Writes the files
 * audit and events.hv, by ../vmm/record.c. The status is 1 where a function answers what it mustn't.
 */
#include "kernel.h"
#include "hvpm_guest.h"

/* ---- Linux' functions ---- */

int hv_call_withdraw_memory(u64 count, int node, u64 partition);
int hv_call_create_partition(u64 flags, struct hv_partition_creation_properties properties,
                             union hv_partition_isolation_properties isolation, u64 *partition);
int hv_call_initialize_partition(u64 partition);
int hv_call_finalize_partition(u64 partition);
int hv_call_delete_partition(u64 partition);
int hv_call_delete_vp(u64 partition, u32 vp);
int hv_call_create_port(u64 port_partition, union hv_port_id port, u64 connection_partition,
                        struct hv_port_info *info, u8 port_vtl, u8 min_connection_vtl, int node);
int hv_call_delete_port(u64 port_partition, union hv_port_id port);
int hv_call_connect_port(u64 port_partition, union hv_port_id port, u64 connection_partition,
                         union hv_connection_id connection, struct hv_connection_info *info,
                         u8 connection_vtl, int node);
int hv_call_disconnect_port(u64 connection_partition, union hv_connection_id connection);
int hv_call_get_vp_registers(u32 vp, u64 partition, u16 count, union hv_input_vtl vtl,
                             struct hv_register_assoc *registers);
int hv_call_set_vp_registers(u32 vp, u64 partition, u16 count, union hv_input_vtl vtl,
                             struct hv_register_assoc *registers);
int hv_call_get_partition_property(u64 partition, u64 code, u64 *value);

/* ---- The record ---- */

extern hvpm_record record;
void record_start(void);
void record_keep(void);
void record_end(uint64_t events);
void note(const char *format, ...) __attribute__((format(printf, 1, 2)));

static bool has_failed;

static void holds(const char *what, bool is_so) {
    if (!is_so) note("WRONG: %s", what), has_failed = true;
}

/* ---- The root's memory ---- */

enum { PAGES = 4096, POOL = 4 }; /* the pool pays for the root's processor, and is in no list of pages */
static u8 memory[PAGES * PAGE_SIZE] __attribute__((aligned(4096)));
static struct page pages[PAGES];

static bool are_free(u64 first, u64 count) {
    for (u64 pfn = first; pfn < first + count; pfn++)
        if (pfn >= PAGES || pages[pfn].is_used) return false;
    return true;
}

struct page *alloc_pages_node(int node, int flags, int order) {
    const u64 count = 1ull << order;
    (void)node, (void)flags;
    for (u64 first = POOL; first < PAGES; first++) {
        if (!are_free(first, count)) continue;
        for (u64 pfn = first; pfn < first + count; pfn++) pages[pfn].is_used = true;
        return &pages[first];
    }
    return NULL;
}

u64 page_to_pfn(const struct page *page) { return (u64)(page - pages); }
struct page *pfn_to_page(u64 pfn) { return &pages[pfn]; }
void *page_address(const struct page *page) { return memory + page_to_pfn(page) * PAGE_SIZE; }
void __free_page(struct page *page) { page->is_used = false; }
static u64 physical(const void *at) { return at ? (u64)((const u8 *)at - memory) : 0; }
void free_page(unsigned long at) { __free_page(&pages[physical((const void *)at) / PAGE_SIZE]); }

static u64 count_used(void) {
    u64 count = 0;
    for (u64 pfn = POOL; pfn < PAGES; pfn++) count += pages[pfn].is_used;
    return count;
}

/* ---- Hypercalls ---- */

static hvpm_machine machine = HVPM_EMPTY;
static const hvpm_caller root = {1, 0};
static void *input, *output; /* Linux' pages for lists */

struct mshv_root mshv_root;
void **hyperv_pcpu_input_arg = &input, **hyperv_pcpu_output_arg = &output;
u64 hv_current_partition_id = 1;
enum hv_partition_type hv_curr_partition_type = HV_PARTITION_TYPE_ROOT;

/* Not Linux' numbers: a case below names the status that it wants. */
int hv_result_to_errno(u64 status) { return -(int)(status & 0xFFFF); }

static u64 call(u64 control, u64 rdx, u64 r8) {
    hvpm_guest_cpu cpu = {.rcx = control, .rdx = rdx, .r8 = r8, .is_64_bit = true, .is_protected = true};
    hvpm_reply reply = {.kind = HVPM_REPLY_MORE};
    hvpm_registers at = {0};
    holds("a kernel may call", hvpm_guest_call(&cpu, &at));
    const bool reads = hvpm_guest_has_input(&at), writes = hvpm_guest_has_output(&at);
    const size_t len = reads ? PAGE_SIZE - at.rdx % PAGE_SIZE : 0;
    while (reply.kind == HVPM_REPLY_MORE) {
        if (hvpm_hypercall(&machine, root, &at, reads ? memory + at.rdx : NULL, len, &reply, NULL, 0) !=
            HVPM_STATUS_OK)
            abort();
        if (writes)
            memcpy(memory + at.r8 + (at.rcx >> 48 & 0xFFF) * reply.output_len, reply.output,
                   reply.output_len);
        if (reply.kind == HVPM_REPLY_MORE) at.rcx = hvpm_next(at.rcx, &reply);
    }
    record_keep();
    hvpm_guest_return(&cpu, reply.result);
    return cpu.rax;
}

u64 hv_do_hypercall(u64 control, void *in, void *out) { return call(control, physical(in), physical(out)); }
u64 hv_do_fast_hypercall8(u16 code, u64 first) { return call(code | HV_HYPERCALL_FAST_BIT, first, 0); }
u64 hv_do_fast_hypercall16(u16 code, u64 first, u64 second) {
    return call(code | HV_HYPERCALL_FAST_BIT, first, second);
}

/* ---- What a root does ---- */

enum { VPS = 2, SINTS = 16, REGISTERS = SINTS + 3 };

/* What HvGetVpRegisters answers must be what HvSetVpRegisters set. */
static void use_registers(u64 child, u32 vp) {
    const union hv_input_vtl none = {0};
    struct hv_register_assoc set[REGISTERS] = {0}, got[REGISTERS + 1] = {0};
    for (u32 i = 0; i < SINTS; i++) set[i].name = HV_REGISTER_SINT0 + i, set[i].value.reg64 = 0x20 + i;
    set[SINTS].name = HV_REGISTER_SIMP, set[SINTS].value.reg64 = 0x5001;
    set[SINTS + 1].name = HV_REGISTER_SIEFP, set[SINTS + 1].value.reg64 = 0x6001;
    set[SINTS + 2].name = HV_REGISTER_SCONTROL, set[SINTS + 2].value.reg64 = 1;
    holds("registers are set", hv_call_set_vp_registers(vp, child, REGISTERS, none, set) == 0);
    for (u32 i = 0; i < REGISTERS; i++) got[i].name = set[i].name;
    got[REGISTERS].name = HV_REGISTER_VP_INDEX;
    holds("registers are read", hv_call_get_vp_registers(vp, child, REGISTERS + 1, none, got) == 0);
    for (u32 i = 0; i < REGISTERS; i++)
        holds("a register is what was set", got[i].value.reg64 == set[i].value.reg64);
    holds("the index", got[REGISTERS].value.reg64 == vp);
    set[0].value.reg64 = 1; /* below the lowest vector */
    holds("a vector below 16",
          hv_call_set_vp_registers(vp, child, 1, none, set) == -HV_STATUS_INVALID_PARAMETER);
    set[0].name = HV_REGISTER_VP_INDEX;
    holds("an index is fixed",
          hv_call_set_vp_registers(vp, child, 1, none, set) == -HV_STATUS_INVALID_PARAMETER);
}

/* A port of the child for messages or event flags, with the root's connection to it. */
static void use_port(u64 child, u32 number, u32 type) {
    const union hv_port_id port = {number};
    const union hv_connection_id id = {number};
    struct hv_port_info info = {.port_type = type, .message_port_info = {.target_sint = 2, .target_vp = 0}};
    struct hv_connection_info connection = {.port_type = type};
    if (type == HV_PORT_TYPE_EVENT) info.event_port_info.flag_count = 2048;
    holds("a connection to no port", hv_call_connect_port(child, port, 1, id, &connection, 0, NUMA_NO_NODE) ==
                                         -HV_STATUS_INVALID_PORT_ID);
    holds("a port", hv_call_create_port(child, port, 1, &info, 0, 0, NUMA_NO_NODE) == 0);
    holds("a second one of this id",
          hv_call_create_port(child, port, 1, &info, 0, 0, NUMA_NO_NODE) == -HV_STATUS_INVALID_PORT_ID);
    holds("a connection", hv_call_connect_port(child, port, 1, id, &connection, 0, NUMA_NO_NODE) == 0);
}

static void end_port(u64 child, u32 number) {
    const union hv_port_id port = {number};
    const union hv_connection_id id = {number};
    holds("a connection ends", hv_call_disconnect_port(1, id) == 0);
    holds("it is gone", hv_call_disconnect_port(1, id) == -HV_STATUS_INVALID_CONNECTION_ID);
    holds("a port ends", hv_call_delete_port(child, port) == 0);
    holds("a port is gone", hv_call_delete_port(child, port) == -HV_STATUS_INVALID_PORT_ID);
}

/* The life of a partition. The root gives pages to itself only where it has too few. */
static void run(void) {
    const struct hv_partition_creation_properties properties = {0};
    const union hv_partition_isolation_properties isolation = {0};
    const union hv_port_id third = {3};
    struct hv_port_info doorbell = {.port_type = HV_PORT_TYPE_DOORBELL};
    u64 child = 0, value = 0;
    holds("a partition", hv_call_create_partition(0, properties, isolation, &child) == 0 && child == 2);
    holds("its mask",
          hv_call_get_partition_property(child, HV_PARTITION_PROPERTY_PRIVILEGE_FLAGS, &value) == 0 &&
              value == 0x3000000044);
    holds("its start", hv_call_initialize_partition(child) == 0);
    for (u32 vp = 0; vp < VPS; vp++) {
        holds("a processor", hv_call_create_vp(NUMA_NO_NODE, child, vp, 0) == 0);
        use_registers(child, vp);
    }
    holds("an index that is taken",
          hv_call_create_vp(NUMA_NO_NODE, child, 0, 0) == -HV_STATUS_INVALID_VP_INDEX);
    use_port(child, 1, HV_PORT_TYPE_MESSAGE);
    use_port(child, 2, HV_PORT_TYPE_EVENT);
    holds("no doorbells", hv_call_create_port(child, third, 1, &doorbell, 0, 0, NUMA_NO_NODE) ==
                              -HV_STATUS_INVALID_PARAMETER);
    end_port(child, 1);
    holds("a processor ends", hv_call_delete_vp(child, 1) == 0);
    holds("it is gone", hv_call_delete_vp(child, 1) == -HV_STATUS_INVALID_VP_INDEX);
    holds("an Active partition stays", hv_call_delete_partition(child) == -HV_STATUS_INVALID_PARTITION_STATE);
    holds("its end", hv_call_finalize_partition(child) == 0);
    holds("its pages come back", hv_call_withdraw_memory(PAGES, NUMA_NO_NODE, child) == 0);
    holds("but 2 for lists, 2 for the partition and 2 for connections", count_used() == 6);
    holds("its deletion", hv_call_delete_partition(child) == 0);
    holds("a partition is gone", hv_call_delete_partition(child) == -HV_STATUS_INVALID_PARTITION_ID);
}

int main(void) {
    const hvpm_config config = {.mask = 0xf700000064, .pages = PAGES, .pool = POOL, .vps = 1};
    input = page_address(alloc_page(GFP_KERNEL)), output = page_address(alloc_page(GFP_KERNEL));
    record_start();
    machine.record = &record;
    if (hvpm_boot(&machine, &config) != HVPM_STATUS_OK) abort();
    run();
    note("%lu events, %sas they must be", (unsigned long)machine.events, has_failed ? "NOT " : "");
    record_end(machine.events);
    hvpm_destroy(&machine);
    return has_failed;
}
