/* refused: the ninth map */
#include "bpf_helpers.h"

#define DATA_OF(letter) u32 letter SEC(".data." #letter) = 1;
DATA_OF(a) DATA_OF(b) DATA_OF(c) DATA_OF(d) DATA_OF(e) DATA_OF(f) DATA_OF(g) DATA_OF(h) DATA_OF(i)

SEC("xdp")
int sum(const u32 *context)
{
    return a + b + c + d + e + f + g + h + i + *context;
}
