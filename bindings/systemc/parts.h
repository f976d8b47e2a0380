// What the example and the tests are made of: a memory, a bus, and an initiator that counts its expectations.
#ifndef PARTS_H
#define PARTS_H

#include "dma330_program.h"
#include "dma330_tlm.h"

#include <tlm_utils/multi_passthrough_initiator_socket.h>
#include <tlm_utils/multi_passthrough_target_socket.h>

#include <cstdio>

using sc_core::SC_NS;
using sc_core::SC_ZERO_TIME;
using sc_core::sc_time;

enum { INTEN = 0x020, RIS = 0x024, INTCLR = 0x02C, FTR = 0x040, CSR = 0x100, DBGSTATUS = 0xD00, DBGCMD = 0xD04,
       DBGINST0 = 0xD08, DBGINST1 = 0xD0C, CRD = 0xE14 };

// A memory that grants DMI, for reading alone if it is a ROM.
struct memory : sc_core::sc_module {
    tlm_utils::simple_target_socket<memory> socket;
    std::vector<std::uint8_t> bytes;
    const bool is_rom;
    unsigned granted = 0;

    memory(sc_core::sc_module_name name, std::size_t size, bool is_rom)
        : sc_module(name), socket("socket"), bytes(size), is_rom(is_rom)
    {
        socket.register_b_transport(this, &memory::b_transport);
        socket.register_get_direct_mem_ptr(this, &memory::get_dmi);
    }

    void b_transport(tlm::tlm_generic_payload &access, sc_time &)
    {
        const std::uint64_t at = access.get_address(), len = access.get_data_length();
        if (at + len > bytes.size() || (is_rom && access.is_write()))
            return access.set_response_status(tlm::TLM_ADDRESS_ERROR_RESPONSE);
        if (access.is_read())
            std::memcpy(access.get_data_ptr(), &bytes[at], len);
        else if (access.is_write())
            std::memcpy(&bytes[at], access.get_data_ptr(), len);
        access.set_dmi_allowed(true);
        access.set_response_status(tlm::TLM_OK_RESPONSE);
    }

    bool get_dmi(tlm::tlm_generic_payload &, tlm::tlm_dmi &dmi)
    {
        granted++;
        dmi.set_dmi_ptr(bytes.data());
        dmi.set_start_address(0);
        dmi.set_end_address(bytes.size() - 1);
        dmi.set_granted_access(is_rom ? tlm::tlm_dmi::DMI_ACCESS_READ : tlm::tlm_dmi::DMI_ACCESS_READ_WRITE);
        return true;
    }

    void take_back() { socket->invalidate_direct_mem_ptr(0, bytes.size() - 1); }
};

// A bus that decodes addresses, also for DMI and what is taken back.
struct bus : sc_core::sc_module {
    struct range { std::uint64_t from, len; };
    tlm_utils::multi_passthrough_target_socket<bus> in;
    tlm_utils::multi_passthrough_initiator_socket<bus> out;
    std::vector<range> map;

    explicit bus(sc_core::sc_module_name name) : sc_module(name), in("in"), out("out")
    {
        in.register_b_transport(this, &bus::b_transport);
        in.register_transport_dbg(this, &bus::transport_dbg);
        in.register_get_direct_mem_ptr(this, &bus::get_dmi);
        out.register_invalidate_direct_mem_ptr(this, &bus::invalidate);
    }

    template <typename Target> void add(Target &target, std::uint64_t from, std::uint64_t len)
    {
        out.bind(target);
        map.push_back(range{from, len});
    }

    int find(std::uint64_t addr) const
    {
        for (std::size_t n = 0; n < map.size(); n++)
            if (addr >= map[n].from && addr - map[n].from < map[n].len)
                return int(n);
        return -1;
    }

    void b_transport(int, tlm::tlm_generic_payload &access, sc_time &delay)
    {
        const std::uint64_t addr = access.get_address();
        const int n = find(addr);
        if (n < 0)
            return access.set_response_status(tlm::TLM_ADDRESS_ERROR_RESPONSE);
        access.set_address(addr - map[n].from);
        out[n]->b_transport(access, delay);
        access.set_address(addr);
    }

    unsigned transport_dbg(int, tlm::tlm_generic_payload &access)
    {
        const int n = find(access.get_address());
        if (n < 0)
            return 0;
        access.set_address(access.get_address() - map[n].from);
        return out[n]->transport_dbg(access);
    }

    // An answer is about the target's range at most. Where there is no target, it is about all up to the next one.
    bool get_dmi(int, tlm::tlm_generic_payload &access, tlm::tlm_dmi &dmi)
    {
        const std::uint64_t addr = access.get_address();
        const int n = find(addr);
        if (n < 0) {
            dmi.set_start_address(addr);
            for (const range &it : map)
                if (it.from > addr)
                    dmi.set_end_address(std::min<std::uint64_t>(dmi.get_end_address(), it.from - 1));
            return false;
        }
        access.set_address(addr - map[n].from);
        const bool is_granted = out[n]->get_direct_mem_ptr(access, dmi);
        access.set_address(addr);
        dmi.set_start_address(map[n].from + dmi.get_start_address());
        dmi.set_end_address(map[n].from + std::min<std::uint64_t>(dmi.get_end_address(), map[n].len - 1));
        return is_granted;
    }

    void invalidate(int n, sc_dt::uint64 from, sc_dt::uint64 to)
    {
        for (unsigned it = 0; it < in.size(); it++)
            in[it]->invalidate_direct_mem_ptr(map[n].from + from, map[n].from + to);
    }
};

// A processor's side: it reads and writes words, starts channels, and counts what it expects.
struct initiator : sc_core::sc_module {
    tlm_utils::simple_initiator_socket<initiator> socket;
    int passed = 0, failed = 0;

    explicit initiator(sc_core::sc_module_name name) : sc_module(name), socket("socket") {}

    void expect(bool holds, const std::string &what)
    {
        holds ? passed++ : failed++;
        if (!holds)
            std::printf("FAILED at %s: %s\n", sc_core::sc_time_stamp().to_string().c_str(), what.c_str());
    }

    tlm::tlm_response_status access(tlm::tlm_command command, std::uint64_t addr, void *data, unsigned len,
                                    sc_time delay = SC_ZERO_TIME)
    {
        tlm::tlm_generic_payload it;
        it.set_command(command);
        it.set_address(addr);
        it.set_data_ptr(static_cast<unsigned char *>(data));
        it.set_data_length(len);
        it.set_streaming_width(len);
        socket->b_transport(it, delay);
        if (delay != SC_ZERO_TIME)
            wait(delay);
        return it.get_response_status();
    }

    std::uint32_t readl(std::uint64_t addr)
    {
        std::uint32_t value = 0;
        expect(access(tlm::TLM_READ_COMMAND, addr, &value, 4) == tlm::TLM_OK_RESPONSE, "readl");
        return value;
    }

    void writel(std::uint64_t addr, std::uint32_t value)
    {
        expect(access(tlm::TLM_WRITE_COMMAND, addr, &value, 4) == tlm::TLM_OK_RESPONSE, "writel");
    }

    // Executes an instruction by the debug registers of the device at `regs`.
    void debug(std::uint64_t regs, std::uint32_t inst0, std::uint32_t inst1)
    {
        writel(regs + DBGINST0, inst0);
        writel(regs + DBGINST1, inst1);
        writel(regs + DBGCMD, 0);
    }

    void go(std::uint64_t regs, unsigned n, std::uint32_t program) { debug(regs, DMA330_DBGINST0_GO(n), program); }

    void kill(std::uint64_t regs, unsigned n) { debug(regs, DMA330_DBGINST0_KILL(n), 0); }

    unsigned status(std::uint64_t regs, unsigned n) { return readl(regs + CSR + 8 * n) & 15; }
};

#endif
