/* What programs of three hooks are given: at most 256 bytes, which they read. */

/* The front of a packet. */
struct packet {
    u32 length;
    u16 protocol;
    u16 interface;
    u8 data[120];
};

/* A system call as it ends. */
struct call {
    u64 number;
    u64 arguments[6];
    u64 result;
    u64 begin, end;
    u32 user, process;
    char command[16];
};

/* A request of a disk. */
struct request {
    u64 sector;
    u32 bytes;
    u16 device;
    u8 is_write, priority;
    u64 queued, issued, completed;
    u8 front[216];
};
