/*
 * What the files of Linux' root driver need of its kernel, for a program: each of their includes is empty but
 * those of include/hyperv and include/asm-generic/mshyperv.h, and this file comes before all.
 */
#ifndef KERNEL_H
#define KERNEL_H

#include <errno.h>
#include <stdbool.h>
#include <stddef.h>
#include <stdint.h>
#include <stdio.h>
#include <stdlib.h>
#include <string.h>

typedef uint8_t u8, __u8;
typedef uint16_t u16, __u16;
typedef uint32_t u32, __u32;
typedef uint64_t u64, __u64;
typedef int8_t s8;
typedef int16_t s16;
typedef int32_t s32;
typedef int64_t s64;
typedef unsigned long ulong;

#define CONFIG_X86 1
#define CONFIG_HYPERV 0 /* guests' part of mshyperv.h, which needs more of the kernel */
#define CONFIG_HYPERV_VTL_MODE 0
#define CONFIG_MSHV_ROOT 1
#define IS_ENABLED(x) x
#define BIT(n) (1ul << (n))
#define BIT_ULL(n) (1ull << (n))
#define GENMASK(high, low) ((~0ul << (low)) & (~0ul >> (63 - (high))))
#define GENMASK_ULL GENMASK
#define static_assert(...) extern int not_asserted
#define EXPORT_SYMBOL_GPL(name) extern int not_exported
#define fallthrough __attribute__((fallthrough))
#define min(one, other) ((one) < (other) ? (one) : (other))
#define __packed __attribute__((packed))
#define __aligned(n) __attribute__((aligned(n)))
#define __percpu
#define __TRAILING_OVERLAP(type, name, ...) type name
#define DECLARE_FLEX_ARRAY(type, name) type name[0]
#define NUMA_NO_NODE (-1)
#define node_to_pxm(node) (node)
#define touch_nmi_watchdog() (void)0
#define local_irq_save(flags) (void)((flags) = 0)
#define local_irq_restore(flags) (void)(flags)
#define this_cpu_ptr(pointer) (pointer)
#define BUG() abort()
#define PAGE_SIZE 4096ul
#define PAGE_SHIFT 12

/* Pages of the root's memory: main.c has them. */
struct page {
    bool is_used;
};
enum { GFP_KERNEL };
struct page *alloc_pages_node(int node, int flags, int order);
u64 page_to_pfn(const struct page *page);
struct page *pfn_to_page(u64 pfn);
void *page_address(const struct page *page);
void free_page(unsigned long address);
void __free_page(struct page *page);
#define alloc_page(flags) alloc_pages_node(NUMA_NO_NODE, flags, 0)
#define split_page(page, order) (void)(order)
#define kzalloc_objs(type, count) ((type *)calloc(count, sizeof(type)))
#define kfree free

int hv_result_to_errno(u64 status);
#define hv_status_err(status, ...) (void)(status)
#define hv_status_debug(status, ...) (void)(status)
#define trace_mshv_hvcall_create_partition(...) (void)0
#define trace_mshv_hvcall_initialize_partition(...) (void)0
#define trace_mshv_hvcall_finalize_partition(...) (void)0
#define trace_mshv_hvcall_delete_partition(...) (void)0
#define trace_mshv_hvcall_withdraw_memory(...) (void)0

#include "asm-generic/mshyperv.h"

struct mshv_root {
    struct {
        bool vmm_can_provide_overlay_gpfn;
    } vmm_caps;
};
extern struct mshv_root mshv_root;

#undef CONFIG_X86 /* a processor's sleep states */

#endif
