/* The declarations of QEMU 7.2, or of QEMU 10.0 if QEMU_VERSION_MAJOR is 10, that dma330.c uses, with which
 * tests/test_library compiles it without QEMU. */
#ifndef STUBS_H
#define STUBS_H

#include <assert.h>
#include <errno.h>
#include <inttypes.h>
#include <stdbool.h>
#include <stddef.h>
#include <stdlib.h>
#include <string.h>

#define MIN(a, b) ((a) < (b) ? (a) : (b))
#define MAX(a, b) ((a) > (b) ? (a) : (b))
#define container_of(at, type, member) ((type *)((char *)(at) - offsetof(type, member)))
#define QEMU_BUILD_BUG_ON(holds) _Static_assert(!(holds), #holds)
#define extract32(value, start, length) ((value) >> (start) & ((1u << (length)) - 1))

typedef uint64_t hwaddr, Int128;
typedef void *qemu_irq;
typedef struct Error Error;
typedef struct QEMUTimer QEMUTimer;
typedef struct AddressSpace { int it; } AddressSpace;
typedef struct MemoryRegion { int it; } MemoryRegion;
struct rcu_head { int it; };
typedef struct SysBusDevice { int it; } SysBusDevice;
typedef struct DeviceState { SysBusDevice it; } DeviceState;
typedef struct Object Object;
typedef struct ObjectClass ObjectClass;
#if QEMU_VERSION_MAJOR < 10
typedef struct Property Property;
#define DEFINE_PROP_END_OF_LIST() {NULL, 0, 0}
#else
typedef const struct Property Property;
#endif

typedef struct MemoryRegionOps {
    uint64_t (*read)(void *opaque, hwaddr offset, unsigned size);
    void (*write)(void *opaque, hwaddr offset, uint64_t value, unsigned size);
    int endianness;
    struct { unsigned min_access_size, max_access_size; } impl;
} MemoryRegionOps;
typedef struct MemoryRegionSection {
    Int128 size;
    MemoryRegion *mr;
    hwaddr offset_within_region, offset_within_address_space;
    bool readonly;
} MemoryRegionSection;
typedef struct MemoryListener MemoryListener;
struct MemoryListener {
    const char *name;
    void (*begin)(MemoryListener *listener);
    void (*region_add)(MemoryListener *listener, MemoryRegionSection *section);
    void (*region_nop)(MemoryListener *listener, MemoryRegionSection *section);
    void (*commit)(MemoryListener *listener);
};
typedef struct VMStateField { size_t offset, size; } VMStateField;
typedef struct VMStateDescription {
    const char *name;
    int version_id, minimum_version_id;
    int (*pre_save)(void *opaque);
    int (*post_load)(void *opaque, int version_id);
    const VMStateField *fields;
} VMStateDescription;
struct Property { const char *name; size_t offset; uint32_t value; };
typedef struct DeviceClass {
    void (*realize)(DeviceState *dev, Error **errp);
    void (*unrealize)(DeviceState *dev);
    const VMStateDescription *vmsd;
} DeviceClass;
typedef enum ResetType { RESET_TYPE_COLD } ResetType;
typedef struct ResettableClass {
    struct {
        void (*enter)(Object *obj, ResetType type);
#if QEMU_VERSION_MAJOR < 10
        void (*hold)(Object *obj);
#else
        void (*hold)(Object *obj, ResetType type);
#endif
    } phases;
} ResettableClass;
typedef struct TypeInfo {
    const char *name, *parent;
    size_t instance_size;
    void (*class_init)(ObjectClass *klass, void *data);
} TypeInfo;

enum { DEVICE_LITTLE_ENDIAN, QEMU_CLOCK_VIRTUAL, LOG_GUEST_ERROR, LOG_UNIMP };
#define MEMTXATTRS_UNSPECIFIED 0
#define TYPE_SYS_BUS_DEVICE "sys-bus-device"
#define TYPE_MEMORY_REGION "memory-region"
#define OBJECT_DECLARE_SIMPLE_TYPE(Type, NAME) typedef struct Type Type; Type *NAME(void *object);
#define DEFINE_TYPES(types) const TypeInfo *defined_types(void); const TypeInfo *defined_types(void) { return types; }
#define SYS_BUS_DEVICE(dev) (&(dev)->it)
#define DEVICE_CLASS(klass) ((DeviceClass *)(klass))
#define RESETTABLE_CLASS(klass) ((ResettableClass *)(klass))
#define OBJECT(it) ((void *)(it))
#define g_new0(Type, count) ((Type *)calloc(count, sizeof(Type)))
#define g_free_rcu(at, field) free_later(&(at)->field)
#define VMSTATE_UINT64(field, Type) {offsetof(Type, field), sizeof ((Type *)0)->field}
#define VMSTATE_BUFFER(field, Type) {offsetof(Type, field), sizeof ((Type *)0)->field}
#define VMSTATE_TIMER_PTR(field, Type) {offsetof(Type, field), sizeof ((Type *)0)->field}
#define VMSTATE_END_OF_LIST() {0, 0}
#define DEFINE_PROP_UINT32(name, Type, field, value) {name, offsetof(Type, field), value}
#define DEFINE_PROP_LINK(name, Type, field, type, pointer) {name, offsetof(Type, field), 0}

__attribute__((format(printf, 2, 3))) void qemu_log_mask(int mask, const char *format, ...);
__attribute__((format(printf, 1, 2))) void error_report(const char *format, ...);
__attribute__((format(printf, 1, 2))) void warn_report_once(const char *format, ...);
__attribute__((format(printf, 2, 3))) void error_setg(Error **errp, const char *format, ...);
void trace_dma330_read(uint32_t offset, uint32_t value);
void trace_dma330_write(uint32_t offset, uint32_t value);
void trace_dma330_start(int thread, uint32_t pc);
void trace_dma330_fault(int thread, uint32_t pc, uint32_t fault);
void trace_dma330_store(uint32_t channel, uint32_t addr, uint32_t len);
void trace_dma330_irqs(uint32_t irqs, uint32_t irq_abort);
void trace_dma330_lend(uint32_t addr, uint32_t len, uint32_t read_only);
void qemu_set_irq(qemu_irq irq, int level);
QEMUTimer *timer_new_ns(int clock, void (*call)(void *opaque), void *opaque);
void timer_mod(QEMUTimer *timer, int64_t at);
void timer_del(QEMUTimer *timer);
void timer_free(QEMUTimer *timer);
void free_later(struct rcu_head *head);
bool timer_pending(QEMUTimer *timer);
uint64_t timer_expire_time_ns(QEMUTimer *timer);
int icount_enabled(void);
int64_t qemu_clock_get_ns(int clock);
uint64_t int128_get64(Int128 value);
bool memory_region_is_ram(MemoryRegion *mr);
bool memory_region_is_ram_device(MemoryRegion *mr);
bool memory_region_is_romd(MemoryRegion *mr);
void memory_region_ref(MemoryRegion *mr);
void memory_region_unref(MemoryRegion *mr);
void *memory_region_get_ram_ptr(MemoryRegion *mr);
void memory_region_init_io(MemoryRegion *mr, void *owner, const MemoryRegionOps *ops, void *opaque, const char *name,
                           uint64_t size);
void memory_listener_register(MemoryListener *listener, AddressSpace *as);
void memory_listener_unregister(MemoryListener *listener);
void address_space_init(AddressSpace *as, MemoryRegion *root, const char *name);
void address_space_destroy(AddressSpace *as);
void *address_space_map(AddressSpace *as, hwaddr addr, hwaddr *len, bool is_write, int attrs);
void address_space_unmap(AddressSpace *as, void *bytes, hwaddr len, bool is_write, hwaddr written);
void sysbus_init_mmio(SysBusDevice *dev, MemoryRegion *mr);
void sysbus_init_irq(SysBusDevice *dev, qemu_irq *irq);
void qdev_init_gpio_in(DeviceState *dev, void (*call)(void *opaque, int n, int level), int count);
void device_class_set_props(DeviceClass *dc, Property *properties);

#endif
