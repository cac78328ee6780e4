/* A number for the name of a command's first letter, by a switch that the compiler makes a table of. */
#include "bpf_helpers.h"
#include "hooks.h"

SEC("tracepoint/syscalls/sys_exit")
int name(const struct call *call)
{
    switch (call->command[0] & 15) {
    case 0: return 71;
    case 1: return 23;
    case 2: return 91;
    case 3: return 4;
    case 4: return 62;
    case 5: return 17;
    case 6: return 88;
    case 7: return 45;
    case 8: return 9;
    case 9: return 31;
    default: return 1;
    }
}
