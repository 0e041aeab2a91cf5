/*
 * hvpm.hpp: a machine of hvpm.h that destroys itself, for C++11 and later.
 *
 *     hvpm::machine machine;
 *     if (machine.boot({0xf700000064, 32, 12, 1}) != HVPM_STATUS_OK) return 1;
 *     hvpm_reply reply;
 *     if (machine.hypercall({1, 0}, {HVPM_CALL_GET_PARTITION_ID, 0, 0}, reply) != HVPM_STATUS_OK) return 1;
 *     uint64_t child;
 *     hvpm_create_partition(machine, {1, 0}, 0, &child, &reply, nullptr, 0);  // all of hvpm.h takes a machine
 */
#ifndef HVPM_HPP
#define HVPM_HPP

#include "hvpm.h"

#include <utility>
#if __cplusplus >= 202002L
#include <span>
#endif

namespace hvpm {

/* A handle. It begins without a machine, moves, and is never copied. */
class machine {
  public:
    machine() = default;
    machine(machine &&from) noexcept {
        std::swap(handle, from.handle);
    }
    machine &operator=(machine &&from) noexcept {
        std::swap(handle, from.handle);
        return *this;
    }
    machine(const machine &) = delete;
    machine &operator=(const machine &) = delete;
    ~machine() {
        hvpm_destroy(&handle);
    }

    /* The handle, for the functions of hvpm.h. */
    operator hvpm_machine *() {
        return &handle;
    }
    operator const hvpm_machine *() const {
        return &handle;
    }

    uint32_t boot(const hvpm_config &config) {
        return hvpm_boot(&handle, &config);
    }
    void destroy() {
        hvpm_destroy(&handle);
    }
    uint64_t events() const {
        return handle.events;
    }

    /* Records the events from now on, or none if it is null: "Recording" in hvpm.h. */
    void record(hvpm_record *to) {
        handle.record = to;
    }

    /* Executes one hypercall, without an audit line. */
    uint32_t hypercall(hvpm_caller by, const hvpm_registers &registers, hvpm_reply &reply) {
        return hypercall(by, registers, reply, nullptr, 0);
    }
    uint32_t hypercall(hvpm_caller by, const hvpm_registers &registers, hvpm_reply &reply, const void *input,
                       size_t input_len) {
        return hvpm_hypercall(&handle, by, &registers, input, input_len, &reply, nullptr, 0);
    }
#if __cplusplus >= 202002L
    uint32_t hypercall(hvpm_caller by, const hvpm_registers &registers, hvpm_reply &reply,
                       std::span<const uint8_t> input) {
        return hypercall(by, registers, reply, input.data(), input.size());
    }
#endif

  private:
    hvpm_machine handle = HVPM_EMPTY;
};

}

#endif
