// A machine of hvpm.hpp: it is served, moves with its events, and is destroyed once. `.ci/embed` compiles it as
// C++11 and as C++20, with an address sanitizer, which sees a second destruction and a machine that is left.
#include "hvpm.hpp"

#include <cstdio>
#include <cstdlib>
#include <type_traits>

static_assert(!std::is_copy_constructible<hvpm::machine>::value, "it isn't copied");
static_assert(std::is_nothrow_move_constructible<hvpm::machine>::value, "it moves");

static void holds(bool is_so, const char *what) {
    if (is_so) return;
    std::fprintf(stderr, "%s\n", what);
    std::exit(1);
}

int main() {
    const hvpm_caller root = {1, 0};
    hvpm_reply reply;
    hvpm::machine first;
    holds(first.hypercall(root, {0x46, 0, 0}, reply) == HVPM_STATUS_EMPTY, "it begins without a machine");
    holds(first.boot({0xf700000064, 32, 12, 1}) == HVPM_STATUS_OK, "it boots");
    holds(first.boot({0xf700000064, 32, 12, 1}) == HVPM_STATUS_OCCUPIED, "it boots once");
    holds(first.hypercall(root, {HVPM_CALL_GET_PARTITION_ID, 0, 0}, reply) == HVPM_STATUS_OK &&
              reply.output[0] == 1 && first.events() == 1,
          "it is served");
    hvpm::machine second(std::move(first));
    holds(first.events() == 0 && second.events() == 1, "it moves");
    const uint8_t input[8] = {1};
#if __cplusplus >= 202002L
    const uint32_t status = second.hypercall(root, {HVPM_CALL_GET_MEMORY_BALANCE, 0, 0}, reply, input);
#else
    const uint32_t status =
        second.hypercall(root, {HVPM_CALL_GET_MEMORY_BALANCE, 0, 0}, reply, input, sizeof input);
#endif
    holds(status == HVPM_STATUS_OK && reply.output[0] == 8 && reply.output[8] == 4, "an input arrives");
    uint64_t child = 0;
    holds(hvpm_create_partition(second, root, 0, &child, &reply, nullptr, 0) == HVPM_STATUS_OK && child == 2,
          "functions of hvpm.h take it");
    hvpm_record record = {};
    second.record(&record);
    holds(hvpm_take_interrupt(second, root, &reply, nullptr, 0) == HVPM_STATUS_OK && record.audit.len > 0 &&
              record.script.len == sizeof "1.0 interrupt\n" - 1,
          "it records");
    second.record(nullptr);
    hvpm_record_free(&record);
    const hvpm::machine &look = second;
    uint64_t next = 0;
    holds(hvpm_child_after(look, 1, 0, &next) == HVPM_STATUS_OK && next == 2, "looks take it");
    holds(first.boot({0xf700000064, 8, 4, 1}) == HVPM_STATUS_OK, "an empty one boots");
    first = std::move(second);
    holds(first.events() == 4 && second.events() == 0, "both are there after an exchange");
    second.destroy();
    holds(second.hypercall(root, {0x46, 0, 0}, reply) == HVPM_STATUS_EMPTY, "it is gone");
    return 0;
}
