# Passes on of a kernel log what it says of pages that go out of use, for service/pages. The texts are those of Linux 6.1's
# mm/memory-failure.c and drivers/ras/cec.c.
/kernel: (Memory failure: 0x[0-9a-f]+: recovery action for |RAS: Soft-offlining pfn: 0x[0-9a-f]+$|soft offline: 0x[0-9a-f]+: )/
