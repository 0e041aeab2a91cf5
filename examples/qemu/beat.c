/*
 * A device on QEMU's VMBus: the host's side of the heartbeat service. It sends heartbeats, each when the guest
 * answered the one before, and ends QEMU after the last.
 */
#include "qemu/osdep.h"
#include "../linux/vmm/core.h"
#include "hw/hyperv/vmbus.h"
#include "hw/qdev-properties.h"
#include "qemu/module.h"
#include "sysemu/runstate.h"

typedef struct Beat {
    VMBusDevice parent;
    uint32_t wanted;   /* heartbeats */
    uint32_t answered; /* the guest's answers: the first is to the versions */
    bool has_begun;
} Beat;
DECLARE_INSTANCE_CHECKER(Beat, BEAT, "hvpm-beat")

enum { IN_BAND = 6, NEGOTIATE = 0, HEARTBEAT = 1 };

/* Sends a message of an integration service: a pipe's header, that of an icmsg, and its body. */
static void put(VMBusChannel *channel, uint8_t type, const uint8_t *body, uint8_t size) {
    uint8_t message[128] = {1, [4] = 20 + size, [12] = type, [18] = size, [24] = 1, 3}; /* wants an answer */
    if (type != NEGOTIATE) message[8] = message[14] = 3; /* framework 3.0, messages 3.0 */
    memcpy(message + 28, body, size);
    if (vmbus_channel_reserve(channel, 0, 28 + size) == 0)
        vmbus_channel_send(channel, IN_BAND, NULL, 0, message, 28 + size, false, 0);
}

static void put_next(VMBusChannel *channel, Beat *beat) {
    const uint8_t versions[16] = {1, [2] = 1, [8] = 3, [12] = 3}; /* one of each: 3.0 */
    uint8_t number[40] = {0};
    hvpm_put(number, beat->answered, 8);
    if (!beat->has_begun) put(channel, NEGOTIATE, versions, sizeof versions);
    else if (beat->answered <= beat->wanted) put(channel, HEARTBEAT, number, sizeof number);
    else {
        note("%" PRIu32 " heartbeats were answered", beat->wanted);
        qemu_system_shutdown_request(SHUTDOWN_CAUSE_HOST_UI);
    }
    beat->has_begun = true;
}

static int on_open(VMBusChannel *channel) {
    Beat *beat = BEAT(vmbus_channel_device(channel));
    beat->has_begun = false, beat->answered = 0;
    note("the guest opens the channel");
    return 0;
}

/* QEMU calls it when the guest was told that the channel is open, and then when the guest signals. */
static void on_signal(VMBusChannel *channel) {
    Beat *beat = BEAT(vmbus_channel_device(channel));
    const uint32_t before = beat->answered;
    if (vmbus_channel_recv_start(channel) != 0) return;
    for (VMBusChanReq *in; (in = vmbus_channel_recv_peek(channel, sizeof *in)); beat->answered++)
        vmbus_channel_recv_pop(channel), vmbus_free_req(in);
    vmbus_channel_recv_done(channel);
    if (!beat->has_begun || beat->answered > before) put_next(channel, beat);
}

static void class_init(ObjectClass *class, void *unused) {
    static Property properties[] = {DEFINE_PROP_UINT32("beats", Beat, wanted, 20), DEFINE_PROP_END_OF_LIST()};
    VMBusDeviceClass *vmbus = VMBUS_DEVICE_CLASS(class);
    qemu_uuid_parse("57164f39-9115-4e78-ab55-382f3bd5422d", &vmbus->classid);
    vmbus->instanceid = vmbus->classid;
    vmbus->open_channel = on_open, vmbus->chan_notify_cb = on_signal;
    DEVICE_CLASS(class)->user_creatable = true;
    device_class_set_props(DEVICE_CLASS(class), properties);
}

static void register_type(void) {
    static const TypeInfo info = {.name = "hvpm-beat", .parent = TYPE_VMBUS_DEVICE,
                                  .instance_size = sizeof(Beat), .class_init = class_init};
    type_register_static(&info);
}
type_init(register_type)
