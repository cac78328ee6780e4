/* refused: a load from a packet (LD_ABS, LD_IND) */
#include "bpf_helpers.h"

unsigned long long load_byte(void *packet, unsigned long long offset) asm("llvm.bpf.load.byte");

SEC("socket")
int load(void *packet)
{
    return load_byte(packet, 9); /* refused here */
}
