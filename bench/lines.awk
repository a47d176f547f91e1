# Prints `count` lines of a kind, for this folder's measurements: `module` lines, machine checks of new names (of boot
# `boot`), all of one page or each of its own page, the same one again and again, reports and events of the firmware, and so on. `block` and `record` are the
# firmware's, in hexadecimal, and `table` is the `erst` line.
BEGIN {
    status = "1000c14 0 8c00004000010090"
    bank = status " 12345040 86"
    zeros = "0000000000000000"
    mark = "[%5d.%06d] mce: [Hardware Error]: "
    first = mark "CPU %d: Machine Check: 0 Bank 7: 8c00004000010090\n"
    second = mark "TSC %x ADDR %x MISC 86 \n"
    third = mark "PROCESSOR 0:306e4 TIME %d SOCKET 0 APIC 0 microcode 428\n"
    event = "kworker/%d:1-7       [%03d] ..... %5d.%06d: mce_record: CPU: %d, MCGc/s: 1000c14/0, " \
        "MC7: 8c00004000010090, IPID: " zeros ", ADDR: %016x, MISC: 0000000000000086, SYND: " zeros ", RIP: 00:<" zeros ">, TSC: %x, " \
        "PPIN: 2a1b3c4d5e6f7081, vendor: 0, CPUID: 306e4, time: %d, socket: 0, APIC: %x, microcode: 42e\n"
    report = "[%5d.%06d] {%d}[Hardware Error]: "
    split("Hardware error from APEI Generic Hardware Error Source: 1|It has been corrected by h/w and requires no further action|" \
        "event severity: corrected| Error 0, type: corrected|  section_type: memory error|" \
        "   error_status: Storage error in DRAM memory (0x0000000000000400)|  physical_address: 0x%016x|" \
        "  node:1 card:0 module:2 rank:0 bank:3 row:12 column:8 |  error_type: 2, single-bit ECC", reported, "|")
    tracer = "     kworker/0:1-7         [000] ..... %5d.%06d: "
    memory = tracer "mc_event: 1 Corrected error: single-bit ECC on DIMM_B3 (mc:0 location:2:-1:-1 address:0x%08x grain:4096 " \
        "syndrome:0x00000000 APEI location: node:1 card:0 module:2 rank:0 bank:3 row:12 column:8 DIMM location: DIMM_B3 " \
        "status(0x0000000000000400): Storage error in DRAM memory)\n"
    aer = tracer "aer_event: 0000:3b:00.1 PCIe Bus Error: severity=Corrected, Receiver Error|Bad TLP, TLP Header=Not available\n\n"
    other = "[%5d.%06d] usb 1-1: new high-speed USB device number 4 using xhci_hcd\n"
    if (kind == "modules") print "cpu 0 0"
    for (i = 1; i <= count; i++) {
        cpu = i % 64; address = 305418304 + i * 4096; time = 1400000000 + i; s = i / 10; us = i % 10
        if (kind == "modules") printf "module M%d %d %d %d\n", i, (i - 1) / 2048, (i + 6) % 256, (i - 1) / 256 % 8
        else if (kind == "new") printf "bank %d 100 0 7 %d %s\n", boot, i, bank
        else if (kind == "paged") printf "bank %d 100 0 7 %d %s %x 86\n", boot, i, status, address
        else if (kind == "repeat") printf "bank %d 100 0 7 1 %s\n", boot, bank
        else if (kind == "empty") print ""
        else if (kind == "comment") print "# A comment, whose first byte says already that it is one."
        else if (kind == "ghes") printf "ghes 1 60 1 %d %s\n", i, block
        else if (kind == "table") print table
        else if (kind == "put") {
            number = sprintf("%02x%02x", i % 256, i / 256)
            printf "put %x %s%s%s\n", i, substr(record, 1, 192), number, substr(record, 197)
        } else if (kind == "other") printf other, s, us
        else if (kind == "log") {
            printf first, s, us, cpu
            printf second, s, us, i, address
            printf third, s, us, time
        } else if (kind == "trace") printf event, cpu, cpu, s, us, cpu, address, i, time, cpu
        else if (kind == "report") for (n = 1; n <= 9; n++) printf report reported[n] "\n", i, n, i, address
        else if (kind == "memory") printf memory, i, 1, address
        else if (kind == "aer") printf aer, i, 1
    }
    # A report ends with a later line of something else.
    if (kind == "report") printf other, i, 1
}
