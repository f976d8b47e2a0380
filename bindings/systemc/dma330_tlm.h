// A DMA-330 for SystemC and TLM-2.0 (loosely timed), over the verified library dma330.h. Header only; C++11 or later.
// README.md has a whole platform, and explains what follows.
//
//     dma330_tlm dma("dma", {8, 32, 0, 64, 128, 3}, sc_core::sc_time(10, sc_core::SC_NS));
//     bus.out.bind(dma.regs);  dma.mem.bind(bus.in);  dma.irq[5].bind(line);
//
// - `regs` takes the guest's accesses of registers: aligned, of 4 bytes, below 4 KiB. Others get an error response. A
//   debug access reads any bytes at once, and writes none. An access needs 64 KiB of the calling process's stack.
// - `mem` asks targets for DMI pointers; nothing else goes over it. The channels copy in memory that grants DMI. They
//   fail elsewhere, as they do at an address where there is nothing. The device asks in the ranges that lend() names.
//   If none is named, it asks from address 0 on, and goes on after the range of each answer. Memory that is granted for
//   reading alone is ROM. After an invalidate_direct_mem_ptr the device asks again for all, before its next turn or
//   write of a register. A target that grants a range only after the device has asked for it makes this call, too.
//   If the same memory is at two addresses, the device uses it at one of them: where it is RAM, if it is ROM at the
//   other; otherwise at the lower address.
// - `irq[n]`, `irq_abort` and `reset` may be left unbound. While `reset` is high, the device stays as after a reset.
// - `on_written` is called with each range that a turn wrote, so that code translated from it can be dropped.
// - `most` is the bound on the steps of a turn, see below. It is 256 if it isn't given: copies then move some 2.5 GB/s,
//   as was measured.
//
// Time. A chip executes one instruction after another, of its channels in turn. Here a step of a channel executes one
// instruction, or finds that the channel has to wait. Each step takes the time `step`. The steps of two channels don't
// overlap, so two channels that copy at once take as long as one after the other.
//
// For speed, a channel takes many steps at once. Such a turn has up to `most` steps. When it begins, its bytes are
// copied. Then the time of its steps passes. Then its interrupt lines change. A DMASEV, the instruction that signals an
// event, ends the turn: at most one more step comes after it. So a line changes at most one step later than its DMASEV.
// An access of a register that comes in the time of a turn waits until this time is over. For a guest this means:
// - Registers and lines never change early. Memory does, by less than a turn.
// - A write to INTCLR, which clears an interrupt, may take effect after a DMASEV that it came before. This happens only
//   if it came less than a turn before.
// - A DMAWFE, the instruction that waits for an event, takes a step when it begins to wait, and one when it passes.
// - A write to a register takes no time.
#ifndef DMA330_TLM_H
#define DMA330_TLM_H

#include <systemc>
#include <tlm>
#include <tlm_utils/simple_initiator_socket.h>
#include <tlm_utils/simple_target_socket.h>

#include <algorithm>
#include <cstdint>
#include <cstring>
#include <functional>
#include <string>
#include <vector>

#include "dma330.h"

class dma330_tlm : public sc_core::sc_module {
public:
    typedef sc_core::sc_port<sc_core::sc_signal_inout_if<bool>, 1, sc_core::SC_ZERO_OR_MORE_BOUND> line_out;
    typedef sc_core::sc_port<sc_core::sc_signal_in_if<bool>, 1, sc_core::SC_ZERO_OR_MORE_BOUND> line_in;

    tlm_utils::simple_target_socket<dma330_tlm> regs;
    tlm_utils::simple_initiator_socket<dma330_tlm> mem;
    sc_core::sc_vector<line_out> irq;
    line_out irq_abort;
    line_in reset;
    std::function<void(std::uint32_t addr, std::uint32_t len)> on_written;

    // `step` is above 0, so that time passes while a guest's program never ends.
    dma330_tlm(sc_core::sc_module_name name, const dma330_device_config &config, sc_core::sc_time step,
               std::uint32_t most = 256)
        : sc_core::sc_module(name), regs("regs"), mem("mem"), irq("irq", std::min(config.events, 32u)),
          irq_abort("irq_abort"), reset("reset"), channels_(config.channels), step_(step), most_(most)
    {
        SC_HAS_PROCESS(dma330_tlm);
        if (step == sc_core::SC_ZERO_TIME || most == 0 || step > sc_core::sc_max_time() / (most + 1.0))
            fail("the time of a turn is 0, or too long");
        check(dma330_device_open(&device_, &config));
        regs.register_b_transport(this, &dma330_tlm::b_transport);
        regs.register_transport_dbg(this, &dma330_tlm::transport_dbg);
        mem.register_invalidate_direct_mem_ptr(this, &dma330_tlm::invalidate);
        SC_THREAD(run);
        SC_METHOD(drive); // (which alone writes lines, since a signal has one writer)
        sensitive << moved_;
        SC_METHOD(watch_reset);
    }

    ~dma330_tlm() { dma330_device_close(&device_); }

    // Names a range in which to ask for memory, before the simulation or at any time in it.
    void lend(std::uint64_t addr, std::uint64_t len)
    {
        const std::uint64_t from = std::min(addr, end_of_memory());
        windows_.push_back(window{from, from + std::min(len, end_of_memory() - from)});
        stale_ = true;
    }

    // The library's device, for dma330_device_explain, _save and _restore. While the time of a turn passes, it is
    // in its state after the turn.
    dma330_device *device() { return &device_; }

    // To be called after a restore: ends the time of a turn, and sets the lines.
    void changed()
    {
        cut_.notify(sc_core::SC_ZERO_TIME);
        wake_.notify(sc_core::SC_ZERO_TIME);
        set_lines();
    }

private:
    static constexpr std::uint64_t end_of_memory() { return std::uint64_t(1) << 32; }
    // (so that a search ends if each answer is about a few bytes)
    enum { MAX_ANSWERS = 65536 };
    // The addresses from `from` up to, and not including, `to`.
    struct window { std::uint64_t from, to; };
    // An answer about DMI: the last address that it is about, and what it grants.
    struct answer { std::uint64_t last; unsigned char *bytes; bool reads, writes; };

    void fail(const char *why) const
    {
        SC_REPORT_ERROR("dma330_tlm", (std::string(name()) + ": " + why).c_str());
    }

    void warn(const char *why)
    {
        if (!is_warned_)
            SC_REPORT_WARNING("dma330_tlm", (std::string(name()) + ": " + why).c_str());
        is_warned_ = true;
    }

    // (a guest can't cause a refusal, since the device is open and the regions are good)
    void check(std::int32_t code) const
    {
        if (code != DMA330_OK)
            fail(dma330_code_name(code));
    }

    // ---- registers ----

    static tlm::tlm_response_status response(const tlm::tlm_generic_payload &access)
    {
        if (access.get_address() > 0xFFC || access.get_address() % 4 != 0)
            return tlm::TLM_ADDRESS_ERROR_RESPONSE;
        if (access.get_byte_enable_ptr() != nullptr)
            return tlm::TLM_BYTE_ENABLE_ERROR_RESPONSE;
        if (access.get_data_length() != 4 || access.get_streaming_width() < 4)
            return tlm::TLM_BURST_ERROR_RESPONSE;
        return tlm::TLM_OK_RESPONSE;
    }

    void b_transport(tlm::tlm_generic_payload &access, sc_core::sc_time &delay)
    {
        access.set_dmi_allowed(false);
        access.set_response_status(response(access));
        if (!access.is_response_ok())
            return;
        if (delay != sc_core::SC_ZERO_TIME)
            sc_core::wait(delay);
        delay = sc_core::SC_ZERO_TIME;
        while (is_turn_)
            sc_core::wait(over_);
        std::uint32_t value = 0;
        if (access.is_read()) {
            value = read(std::uint32_t(access.get_address()));
            std::memcpy(access.get_data_ptr(), &value, 4);
        } else if (access.is_write()) {
            std::memcpy(&value, access.get_data_ptr(), 4);
            write(std::uint32_t(access.get_address()), value);
        }
    }

    std::uint32_t read(std::uint32_t offset)
    {
        std::uint32_t value = 0;
        check(dma330_device_read(&device_, offset, &value));
        return value;
    }

    void write(std::uint32_t offset, std::uint32_t value)
    {
        if (reset.size() > 0 && reset->read())
            return;
        ask_for_memory();
        check(dma330_device_write(&device_, offset, value, regions_, count_));
        wake_.notify(sc_core::SC_ZERO_TIME);
        set_lines();
    }

    unsigned transport_dbg(tlm::tlm_generic_payload &access)
    {
        unsigned done = 0;
        for (std::uint64_t at = access.get_address();
             access.is_read() && done < access.get_data_length() && at < 0x1000; at++)
            access.get_data_ptr()[done++] = std::uint8_t(read(std::uint32_t(at) & ~3u) >> at % 4 * 8);
        return done;
    }

    // ---- memory ----

    void invalidate(sc_dt::uint64, sc_dt::uint64) { stale_ = true; }

    // Asks for DMI pointers if some were taken back. A target may take back others while it is asked; if that doesn't
    // end, there is no memory until the next call.
    void ask_for_memory()
    {
        for (unsigned tries = 0; stale_ && tries < 8; tries++) {
            stale_ = false;
            lend_all(search());
        }
        if (stale_)
            count_ = 0;
        if (count_ == 0)
            warn("no DMI is granted, so all bursts fail (lend() names where to ask)");
    }

    // Returns all memory that grants DMI, by rising address.
    std::vector<dma330_region> search()
    {
        std::vector<window> windows(windows_);
        if (windows.empty())
            windows.push_back(window{0, end_of_memory()});
        std::sort(windows.begin(), windows.end(), [](const window &a, const window &b) { return a.from < b.from; });
        std::vector<dma330_region> found;
        std::uint64_t at = 0, answers = 0;
        for (const window &it : windows)
            for (at = std::max(at, it.from); at < it.to && answers < MAX_ANSWERS; answers++)
                at = ask_at(at, it.to, found);
        if (answers == MAX_ANSWERS)
            warn("65536 answers about DMI are too few for all addresses (lend() names where to ask)");
        return found;
    }

    // Adds the memory at an address, if it grants DMI, and returns the end of the range that the answers are about.
    std::uint64_t ask_at(std::uint64_t at, std::uint64_t to, std::vector<dma330_region> &found)
    {
        answer is = ask(tlm::TLM_READ_COMMAND, at, to);
        if (is.reads && !is.writes) { // (it may grant only what it is asked for)
            const answer writing = ask(tlm::TLM_WRITE_COMMAND, at, to);
            is.writes = writing.writes && writing.bytes == is.bytes;
            is.last = std::min(is.last, writing.last);
        }
        const dma330_region part = {std::uint32_t(at), is.bytes, std::size_t(is.last + 1 - at), !is.writes};
        const dma330_region *before = found.empty() ? nullptr : &found.back();
        if (is.reads && before && before->addr + before->len == at && before->bytes + before->len == is.bytes &&
            before->read_only == part.read_only)
            found.back().len += part.len;
        else if (is.reads)
            found.push_back(part);
        return is.last + 1;
    }

    answer ask(tlm::tlm_command command, std::uint64_t at, std::uint64_t to)
    {
        tlm::tlm_generic_payload probe;
        tlm::tlm_dmi dmi;
        probe.set_command(command);
        probe.set_address(at);
        const bool is_granted = mem->get_direct_mem_ptr(probe, dmi) && dmi.get_dmi_ptr() != nullptr;
        const std::uint64_t from = dmi.get_start_address();
        const std::uint64_t last = std::min<std::uint64_t>(dmi.get_end_address(), to - 1);
        if (from <= at && at <= last)
            return answer{last, is_granted ? dmi.get_dmi_ptr() + (at - from) : nullptr,
                          is_granted && dmi.is_read_allowed(), is_granted && dmi.is_write_allowed()};
        warn("an answer about DMI isn't about the address that was asked for");
        return answer{to - 1, nullptr, false, false};
    }

    // Makes the regions of what was found, RAM first.
    void lend_all(const std::vector<dma330_region> &found)
    {
        count_ = 0;
        for (std::uint32_t read_only = 0; read_only < 2; read_only++)
            for (const dma330_region &it : found)
                if (it.read_only == read_only)
                    lend_rest(it);
    }

    // Makes regions of those bytes that aren't in one already, with another address.
    void lend_rest(dma330_region it)
    {
        while (it.len > 0) {
            const std::uintptr_t at = std::uintptr_t(it.bytes);
            dma330_region part = it;
            bool is_lent = false;
            for (std::size_t n = 0; n < count_; n++) {
                const std::uintptr_t from = std::uintptr_t(regions_[n].bytes);
                if (from > at) {
                    part.len = std::min<std::size_t>(part.len, from - at);
                } else if (at - from < regions_[n].len) {
                    part.len = std::min<std::size_t>(part.len, regions_[n].len - (at - from));
                    is_lent = true;
                }
            }
            if (!is_lent)
                insert(part);
            it.addr += std::uint32_t(part.len);
            it.bytes += part.len;
            it.len -= part.len;
        }
    }

    // Inserts a region where its address belongs, if there is room.
    void insert(const dma330_region &it)
    {
        if (count_ == DMA330_MAX_REGIONS)
            return warn("DMI is granted in more than 64 ranges, of which some are out of reach");
        dma330_region *end = regions_ + count_;
        dma330_region *here = std::find_if(regions_, end, [&](const dma330_region &a) { return a.addr > it.addr; });
        std::copy_backward(here, end, end + 1);
        *here = it;
        count_++;
    }

    // ---- time ----

    void run()
    {
        for (;;) {
            std::uint32_t can_step = 0;
            check(dma330_device_can_step(&device_, &can_step));
            if (!can_step) {
                sc_core::wait(wake_);
                began_ = sc_core::sc_time_stamp();
                continue;
            }
            bool is_idle = true;
            for (std::uint32_t channel = 0; channel < channels_; channel++)
                is_idle = !turn(std::uint8_t(channel)) && is_idle;
            if (is_idle)
                pass(step_, 0); // (so that time passes, whatever the turns did)
        }
    }

    std::uint32_t status(std::uint8_t channel) { return read(0x100 + 8u * channel) & 15; }

    // Takes a turn, and lets its time pass. Returns whether it took any.
    bool turn(std::uint8_t channel)
    {
        const std::uint32_t before = status(channel);
        if (before != DMA330_CSR_EXECUTING && before != DMA330_CSR_WAITING_FOR_EVENT)
            return false;
        dma330_device_rows rows = {};
        ask_for_memory();
        check(dma330_device_step_rows(&device_, channel, most_, regions_, count_, &rows));
        for (std::uint32_t k = 0; on_written && rows.turn.written.len > 0 && k < rows.count; k++)
            on_written(rows.turn.written.addr + k * rows.pitch, rows.turn.written.len);
        const bool waits = before != DMA330_CSR_EXECUTING && status(channel) == DMA330_CSR_WAITING_FOR_EVENT;
        // (a program that has executed 2^32 - 1 instructions fails without a step)
        if (!rows.turn.lines_changed && (rows.turn.taken == 0 || (rows.turn.taken == 1 && waits)))
            return false;
        pass(sc_core::sc_time::from_value(step_.value() * rows.turn.taken * rows.count), rows.turn.lines_changed);
        return true;
    }

    // Lets the time of a turn pass. Then the lines change, and accesses that have waited are made. After a change the
    // next turn begins a moment later, and ends as if it hadn't, so that a handler that takes no time comes before it.
    void pass(sc_core::sc_time time, std::uint32_t lines_changed)
    {
        const sc_core::sc_time late = sc_core::sc_time_stamp() - began_;
        is_turn_ = true;
        sc_core::wait(time > late ? time - late : sc_core::SC_ZERO_TIME, cut_);
        began_ = sc_core::sc_time_stamp();
        if (lines_changed) {
            set_lines();
            sc_core::wait(sc_core::SC_ZERO_TIME);
        }
        is_turn_ = false;
        over_.notify();
        sc_core::wait(lines_changed ? sc_core::sc_get_time_resolution() : sc_core::SC_ZERO_TIME);
    }

    // ---- lines ----

    // Sets the lines to what they are now, before a turn begins whose time has yet to pass.
    void set_lines()
    {
        check(dma330_device_lines(&device_, &lines_, &abort_));
        moved_.notify(sc_core::SC_ZERO_TIME);
    }

    void drive()
    {
        for (unsigned n = 0; n < irq.size(); n++)
            if (irq[n].size() > 0)
                irq[n]->write(lines_ >> n & 1);
        if (irq_abort.size() > 0)
            irq_abort->write(abort_ != 0);
    }

    // (a port that may be unbound can't be in a static list of sensitivity)
    void watch_reset()
    {
        if (reset.size() == 0)
            return;
        if (reset->read()) {
            check(dma330_device_reset(&device_));
            changed();
        }
        next_trigger(reset->posedge_event());
    }

    const std::uint32_t channels_;
    const sc_core::sc_time step_;
    sc_core::sc_time began_; // (when the turn began, not counting that moment)
    const std::uint32_t most_;
    dma330_device device_ = DMA330_DEVICE_INIT;
    std::vector<window> windows_;
    dma330_region regions_[DMA330_MAX_REGIONS];
    std::size_t count_ = 0;
    std::uint32_t lines_ = 0, abort_ = 0;
    bool stale_ = true, is_warned_ = false, is_turn_ = false;
    sc_core::sc_event cut_, moved_, over_, wake_;
};

#endif
