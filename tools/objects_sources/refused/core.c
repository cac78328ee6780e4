/* refused: CO-RE relocations */
#include "bpf_helpers.h"

struct task {
    u32 flags;
    u32 number;
} __attribute__((preserve_access_index));

SEC("kprobe")
int number(const struct task *task)
{
    return task->number;
}
