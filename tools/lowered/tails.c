/* Functions without a loop, whose branches share returns and tails that clang puts after the first of them: later
   branches jump back there. The context has 64 bytes. */
typedef unsigned char u8;
typedef unsigned int u32;
typedef unsigned long long u64;

u64 utf8(const u8 *p)
{
    if (p[0] < 0x80) return p[0];
    if (p[0] < 0xc2) return 0xfffd;
    if ((p[1] & 0xc0) != 0x80) return 0xfffd;
    if (p[0] < 0xe0) return (p[0] & 31) << 6 | (p[1] & 63);
    if ((p[2] & 0xc0) != 0x80) return 0xfffd;
    if (p[0] < 0xf0) {
        u32 c = (p[0] & 15) << 12 | (p[1] & 63) << 6 | (p[2] & 63);
        return c < 0x800 ? 0xfffd : c;
    }
    if ((p[3] & 0xc0) != 0x80 || p[0] > 0xf4) return 0xfffd;
    return (p[0] & 7) << 18 | (p[1] & 63) << 12 | (p[2] & 63) << 6 | (p[3] & 63);
}

u64 rules(const u8 *p)
{
    u32 src = *(const u32 *)(p + 12), dst = *(const u32 *)(p + 16);
    if ((src & 0xff) == 10) {
        if ((dst & 0xff) == 10) return 1;
        if (p[9] == 6) goto tcp;
        return 2;
    }
    if ((src & 0xffff) == 0xa8c0) {
        if (p[9] == 17) return 3;
        if (p[9] == 6) goto tcp;
        return 4;
    }
    if (p[8] < 2) return 5;
    return 6;
tcp:
    return p[20] == 0 && p[21] == 22 ? 7 : p[20] == 1 ? 8 : 9;
}

u64 token(const u8 *p)
{
    u8 c = p[0];
    if (c >= '0' && c <= '9') return 1;
    if ((c >= 'a' && c <= 'z') || (c >= 'A' && c <= 'Z') || c == '_') return 2;
    switch (c) {
    case ' ':
    case '\t':
    case '\n': return 3;
    case '(':
    case ')':
    case '{':
    case '}': return 4;
    case '=': return p[1] == '=' ? 5 : 6;
    case '<': return p[1] == '=' ? 7 : p[1] == '<' ? 8 : 9;
    default: return c < 32 ? 10 : 11;
    }
}

u64 icmp(const u8 *p)
{
    if (p[9] != 1) goto other;
    switch (p[20]) {
    case 0: return 1;
    case 3:
        if (p[21] == 4) return 2;
        if (p[21] > 15) goto other;
        return 3;
    case 8: return 4;
    case 11:
        if (p[21] > 1) goto other;
        return 5;
    }
other:
    return 0;
}

u64 tcp_flags(const u8 *p)
{
    u32 flags = p[13] & 63;
    if (!flags) return 0;
    if ((flags & 3) == 3) return 0;
    if (flags & 2) {
        if (flags & 4) return 0;
        return flags & 16 ? 2 : 1;
    }
    if (flags & 4) return 3;
    if (flags & 1) {
        if (!(flags & 16)) return 0;
        return 4;
    }
    if (!(flags & 16)) return 0;
    return flags & 8 ? 5 : 6;
}

u64 tls(const u8 *p)
{
    if (p[0] != 22) return p[0] == 23 ? 1 : 0;
    if (p[1] != 3) return 0;
    u32 n = p[3] << 8 | p[4];
    if (n < 4 || n > 16384) return 0;
    if (p[5] == 1) {
        if (p[9] != 3) return 0;
        return 2 + p[10];
    }
    if (p[5] == 2) {
        if (p[10] > 4) return 0;
        return 100;
    }
    return 200;
}

u64 vlan(const u8 *p)
{
    u32 t = p[12] << 8 | p[13];
    if (t < 1501) return 1;
    if (t == 0x8100) {
        u32 id = (p[14] << 8 | p[15]) & 4095;
        if (id == 0) return 1;
        if (id == 4095) return 2;
        if (id < 100) return 3;
        return 1000 + id;
    }
    if (t == 0x0800) {
        if (p[14] >> 4 != 4) return 2;
        return 4;
    }
    if (t == 0x86dd) {
        if (p[14] >> 4 != 6) return 2;
        return 5;
    }
    return 1;
}

u64 utf8_lenient(const u8 *p)
{
    if (p[0] < 0x80) return 1;
    if (p[0] < 0xc0) return 0;
    if (p[0] < 0xe0) {
        if (p[1] >> 6 != 2) return 0;
        return 2;
    }
    if (p[0] < 0xf0) {
        if (p[1] >> 6 != 2 || p[2] >> 6 != 2) return 0;
        return 3;
    }
    if (p[0] < 0xf8) {
        if (p[1] >> 6 != 2 || p[2] >> 6 != 2 || p[3] >> 6 != 2) return 0;
        return 4;
    }
    return 0;
}

u64 firewall(const u8 *p)
{
    u32 src = p[0], dst = p[1], port = p[2];
    if (src == 10) {
        if (dst == 10) return 1;
        if (port == 80) return 2;
        if (port == 22) return 0;
    }
    if (src == 127) return 0;
    if (dst == 224) {
        if (src < 10) return 3;
        return 0;
    }
    if (port < 10) {
        if (src > 200) return 0;
        if (dst > 200) return 4;
        return 5;
    }
    if (port == 25) return 0;
    return 6;
}

u64 bencode(const u8 *p)
{
    switch (p[0]) {
    case 'i':
        if (p[1] == '-') {
            if (p[2] == '0') return 0;
            return 2;
        }
        if (p[1] < '0' || p[1] > '9') return 0;
        return 1;
    case 'l': return p[1] == 'e' ? 3 : 4;
    case 'd':
        if (p[1] == 'e') return 5;
        if (p[1] < '0' || p[1] > '9') return 0;
        return 6;
    case '0':
    case '1':
    case '2':
    case '3':
    case '4':
    case '5':
        if (p[1] != ':') return 0;
        return 7;
    }
    return 0;
}

u64 rtp(const u8 *p)
{
    if (p[0] >> 6 != 2) return p[0] >> 6 == 1 ? 5 : 4;
    u32 kind = p[1] & 127;
    if (kind > 95) {
        if (kind > 127) return 4;
        return 2;
    }
    if (kind > 34) return 4;
    if (p[0] & 15) return 3;
    return p[2] ? 1 : 4;
}

u64 stun(const u8 *p)
{
    if (p[0] & 0xc0) return p[0] & 0x80 ? 1 : 9;
    if (p[4] != 0x21 || p[5] != 0x12) return 9;
    switch (p[1]) {
    case 1:
        if (p[3] & 3) return 9;
        return 2;
    case 17: return 3;
    case 3:
        if (p[2]) return 9;
        return 4;
    }
    return 5;
}

u64 mqtt(const u8 *p)
{
    u32 type = p[0] >> 4, flags = p[0] & 15;
    if (type == 0) return p[1] == 0 ? 50 : 51;
    if (type == 15) return 51;
    if (type == 3) {
        if ((flags >> 1 & 3) == 3) return 51;
        return flags & 1 ? 3 : 4;
    }
    if (type == 6 || type == 8 || type == 10) {
        if (flags != 2) return 51;
        return 5;
    }
    if (flags) return 51;
    return type;
}

u64 snmp(const u8 *p)
{
    if (p[0] != 0x30) return p[0] == 0x31 ? 2 : 0;
    if (p[1] & 0x80) {
        if (p[1] != 0x81) return 0;
        return 3;
    }
    if (p[2] != 2 || p[3] != 1) return 0;
    if (p[4] > 3) return 0;
    if (p[4] == 2) return 0;
    return 10 + p[4];
}

u64 escape(const u8 *p)
{
    if (p[0] != '\\') return p[0] == '"' ? 1000 : p[0];
    switch (p[1]) {
    case 'n': return 10;
    case 't': return 9;
    case 'x':
        if (p[2] < '0' || p[2] > '9') return 1000;
        if (p[3] < '0' || p[3] > '9') return 1000;
        return (p[2] - '0') * 16 + p[3] - '0';
    case '0':
        if (p[2]) return 1000;
        return 0;
    case '"':
    case '\\': return p[1];
    }
    return 1000;
}

u64 mime(const u8 *p)
{
    u32 w = *(const u32 *)p;
    if (w == 0x474e5089) return p[4] == 13 ? 1 : 0;
    if ((w & 0xffff) == 0xd8ff) {
        if (p[2] != 0xff) return 0;
        return 2;
    }
    if (w == 0x38464947) {
        if (p[4] == '7') return 3;
        if (p[4] == '9') return 4;
        return 0;
    }
    if (w == 0x46464952) {
        if (*(const u32 *)(p + 8) != 0x50424557) return 0;
        return 5;
    }
    if (w == 0x04034b50) return 6;
    if ((w & 0xffffff) == 0x088b1f) {
        if (p[3] & 0xe0) return 0;
        return 7;
    }
    return 0;
}

u64 elf(const u8 *p)
{
    if (*(const u32 *)p != 0x464c457f) return p[0] == '#' ? 1 : 0;
    if (p[4] != 1 && p[4] != 2) return 0;
    if (p[5] != 1) {
        if (p[5] != 2) return 0;
        return 2;
    }
    if (p[6] != 1) return 0;
    switch (p[16]) {
    case 1: return 3;
    case 2: return 4;
    case 3:
        if (p[18] == 62) return 5;
        if (p[18] == 247) return 6;
        return 0;
    }
    return 0;
}

u64 meter(const u8 *p)
{
    u64 rate = p[0], burst = p[1], now = p[2];
    if (now > burst) return rate ? 2 : 3;
    if (rate > 200) {
        if (now > 100) return 3;
        return 1;
    }
    if (rate > 100) {
        if (now + rate > 250) return 3;
        if (p[3]) return 2;
        return 1;
    }
    if (p[4] > now) {
        if (p[5] > rate) return 3;
        return 4;
    }
    return 1;
}

u64 leap(const u8 *p)
{
    u32 y = p[0] << 8 | p[1];
    if (y & 3) return y & 1 ? 1 : 2;
    if (y % 100) return 3;
    if (y % 400) {
        if (p[2]) return 2;
        return 1;
    }
    if (p[3] > 28) return 2;
    return 4;
}

u64 bmp(const u8 *p)
{
    if (p[0] != 'B') return p[0] == 'P' ? 1 : 0;
    if (p[1] != 'M') return 0;
    if (p[14] < 12) return 0;
    if (p[14] == 12) return 2;
    if (p[28] == 24) {
        if (p[30]) return 0;
        return 3;
    }
    return p[28] == 8 ? 4 : 0;
}

u64 gzip(const u8 *p)
{
    if (p[0] != 0x1f) return p[0] == 0x78 ? 1 : 9;
    if (p[1] != 0x8b || p[2] != 8) return 9;
    if (p[3] & 0xe0) return 9;
    if (p[3] & 4) {
        if (p[11]) return 9;
        return 2;
    }
    return p[3] & 8 ? 3 : 4;
}

u64 ntp(const u8 *p)
{
    u32 mode = p[0] & 7, version = p[0] >> 3 & 7;
    if (version < 2) return mode == 3 ? 1 : 0;
    if (version > 4) return 0;
    switch (mode) {
    case 3:
        if (p[1]) return 0;
        return 2;
    case 4:
        if (p[1] == 0 || p[1] > 15) return 0;
        return 3;
    case 5: return 4;
    }
    return 5;
}

u64 vxlan(const u8 *p)
{
    if (p[0] != 8) return p[0] & 8 ? 1 : 2;
    if (p[1] | p[2] | p[3]) return 2;
    u32 id = p[4] << 16 | p[5] << 8 | p[6];
    if (p[7]) return 2;
    if (id == 0) return 2;
    if (id < 4096) return 3;
    return id > 0xffff00 ? 1 : 4;
}

u64 radius(const u8 *p)
{
    u32 n = p[2] << 8 | p[3];
    if (n < 20) return n ? 1 : 2;
    if (n > 4096) return 2;
    switch (p[0]) {
    case 1:
        if (p[20] != 1) return 2;
        return 3;
    case 2: return 4;
    case 3: return 5;
    case 4:
    case 5:
        if (p[1] == 0) return 2;
        return 6;
    }
    return 7;
}

u64 pcap(const u8 *p)
{
    u32 magic = *(const u32 *)p;
    if (magic != 0xa1b2c3d4) return magic == 0xd4c3b2a1 ? 1 : 0;
    if (p[4] != 2 || p[6] != 4) return 0;
    if (p[8] | p[9]) return 0;
    if (p[20] == 1) return 2;
    return p[20] == 101 ? 3 : 0;
}

u64 syslog(const u8 *p)
{
    if (p[0] != '<') return p[0] >= '0' && p[0] <= '9' ? 1 : 200;
    if (p[1] < '0' || p[1] > '9') return 200;
    if (p[2] == '>') return p[1] - '0';
    if (p[2] < '0' || p[2] > '9') return 200;
    if (p[3] == '>') return (p[1] - '0') * 10 + p[2] - '0';
    if (p[1] != '1') return 200;
    return p[4] == '>' ? 100 : 200;
}

u64 cpio(const u8 *p)
{
    if (p[0] != '0') return p[0] == 0xc7 ? 1 : 0;
    if (p[1] != '7' || p[2] != '0' || p[3] != '7' || p[4] != '0') return 0;
    if (p[5] == '7') return 2;
    if (p[5] == '1') return 3;
    return p[5] == '2' ? 4 : 0;
}

u64 wake(const u8 *p)
{
    u32 word = *(const u32 *)p;
    if (word != 0xffffffff) return word == 0 ? 1 : 0;
    if (p[4] != 0xff || p[5] != 0xff) return 0;
    if (p[6] & 1) return 0;
    if (p[6] == p[12] && p[7] == p[13]) return 2;
    return p[8] ? 3 : 0;
}
