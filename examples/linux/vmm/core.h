/*
 * What the parts of the VMM share. core.c calls the library, identity.c answers CPUID and the VMM's own MSRs,
 * exit.c takes an exit of QEMU's, root.c is the root's processor, vmbus.c its side of VMBus, kvm.c and tcg.c
 * run a guest's processors, record.c keeps the audit, and main.c starts all of it.
 */
#ifndef CORE_H
#define CORE_H
#include "hvpm_guest.h"
#include "hvpm_pages.h"

enum { PAGE = 4096, MAX_VPS = 8, MAX_GUESTS = 3 };
enum {
    MSR_SCONTROL = 0x40000080, MSR_SIEFP = 0x40000082, MSR_SIMP = 0x40000083, MSR_EOM = 0x40000084,
    MSR_SINT0 = 0x40000090
};
enum { HV_CALL_SET_VP_REGISTERS = 0x51 };
/* Calls of a root that the machine doesn't have. */
enum {
    HV_CALL_ADD_LOGICAL_PROCESSOR = 0x76, HV_CALL_MAP_DEVICE_INTERRUPT = 0x7C,
    HV_CALL_UNMAP_DEVICE_INTERRUPT = 0x7D
};
enum { HV_STATUS_INSUFFICIENT_BUFFERS = 0x13 };

struct guest;
struct hvpm_entry;
struct hvpm_exit;
struct kvm_run;

/* A virtual processor. */
struct vcpu {
    hvpm_pages pages; /* pages.of is its partition and index */
    struct guest *guest;
    int fd;              /* KVM: the vCPU. TCG: the socket of its exits */
    struct kvm_run *run; /* KVM */
    uint64_t code_at;    /* TCG: where QEMU puts the hypercall page's code as it enters the guest, or 0 */
};

/* What runs a guest. */
struct engine {
    void (*start)(struct guest *guest);
    /* Both are called under the machine's lock, and must not wait for one that an exit holds. */
    void (*interrupt)(struct vcpu *vcpu, uint8_t vector, bool has_auto_eoi);
    void (*put_code)(struct vcpu *vcpu, uint64_t at);
};

/* A partition with its memory and processors. */
struct guest {
    uint64_t id;
    unsigned vps;
    struct vcpu vcpu[MAX_VPS];
    const struct engine *engine;
    const char *kernel;
    bool is_hostile; /* nothing is asked of it but its end */
    uint8_t *ram;
    uint64_t ram_size;
    hvpm_guest own;   /* the MSRs that are the hypervisor's own */
    bool has_started; /* TCG: a reset after the first one is the guest's */
    _Atomic bool ended;
    _Atomic unsigned notes; /* how often the VMM told what it does */
    int control; /* TCG: the socket of interrupts and resets. KVM: the VM */
};

/* The root partition's, and those of its children.
 * Where Linux isn't the root, the root is this program (vmbus.c). */
extern struct guest guests[MAX_GUESTS];

extern struct options {
    unsigned vps, children, beats, offers, delay;
    bool root, reload, restart, unload;
    const char *kernel, *hostile, *initrd, *acpi, *append, *qemu, *roms, *bios;
} options;

/*
 * The machine. Each event is one critical section: core_enter locks and answers the machine, and core_leave
 * takes the event's status, delivers its effect and unlocks: core_leave(hvpm_create_vp(core_enter(), ROOT,
 * id, vp, &reply, NULL, 0), &reply). A look has no reply, and gives NULL.
 */
hvpm_machine *core_enter(void);
void core_leave(uint32_t status, const hvpm_reply *reply);
void core_boot(const hvpm_config *config);
uint64_t core_end(void); /* answers how many events there were */
uint64_t core_call(struct vcpu *vcpu, const hvpm_registers *registers, const void *input, size_t len,
                   uint8_t *output, size_t room);
bool core_read_msr(struct vcpu *vcpu, uint32_t msr, uint64_t *value);
bool core_write_msr(struct vcpu *vcpu, uint32_t msr, uint64_t value);

/* The identity: what a guest meets as Hyper-V. Where an MSR answers false, the guest is given #GP, and #UD
 * where a hypercall does. */
bool identity_cpuid(struct guest *guest, uint32_t index, uint32_t leaf[4]);
bool identity_rdmsr(struct vcpu *vcpu, uint32_t msr, uint64_t *value);
bool identity_wrmsr(struct vcpu *vcpu, uint32_t msr, uint64_t value);
bool identity_hypercall(struct vcpu *vcpu, hvpm_guest_cpu *cpu);
void identity_reset(struct guest *guest);
/* An exit in QEMU, of any of the four kinds (tcg/exits.h). */
struct hvpm_entry take_exit(struct vcpu *vcpu, const struct hvpm_exit *exit);

/* The root, where it isn't a Linux. */
#define ROOT ((hvpm_caller){1, 0})
enum { ROOT_MESSAGES = 2, ROOT_EVENTS = 3 }; /* the SINTs of its processor */
void root_start(const struct engine *engine); /* turns its SynIC on */
/* Makes a child with its processors, whose pool pays for so many ports and connections. */
void root_add(struct guest *guest, unsigned more);
/* Makes a port and its peer's connection to it, and removes both. */
void root_connect(const hvpm_port *port, uint32_t connection);
void root_disconnect(const hvpm_port *port, uint32_t connection);
const hvpm_slot *root_message(void); /* what its slot shows, or NULL */
void root_let_go(void);              /* of that */
uint8_t root_flags(unsigned byte);   /* takes eight event flags */

/* The root's side of VMBus. */
void vmbus_start(void);
void vmbus_add(struct guest *guest);
void vmbus_reset(struct guest *guest);
/* A message left a slot of the guest: a post that was refused may be served now. */
void vmbus_has_room(const struct guest *guest);
bool vmbus_is_done(void);  /* the children did all that the options ask of them */

/* The record of a run: its audit, and its events as a script. Lines of guests, core and VMM in one log. */
extern hvpm_record record; /* of the machine */
void record_start(void);   /* into the working directory */
void record_keep(void);    /* after events, with the machine's lock */
void record_end(uint64_t events);
void say_guest(const struct guest *guest, const char *text);
void note(const char *format, ...) __attribute__((format(printf, 1, 2)));
void note_of(struct guest *guest, const char *format, ...) __attribute__((format(printf, 2, 3)));
_Noreturn void die(const char *format, ...) __attribute__((format(printf, 1, 2)));

void start_thread(void *(*run)(void *), void *of);
void guest_ended(struct guest *guest, const char *how);
void allow_signals(void); /* in a new process: signals have their defaults */
extern const struct engine kvm_engine, tcg_engine;
#endif
