/* Functions with loops that clang keeps. The context has 64 bytes. */
typedef unsigned char u8;
typedef unsigned short u16;
typedef unsigned int u32;
typedef unsigned long long u64;

/* clang neither unrolls the loop nor makes vectors of it. */
#define KEEP _Pragma("clang loop unroll(disable) vectorize(disable)")

u64 sum_bytes(const u8 *p)
{
    u64 s = 0;
    KEEP for (int i = 0; i < 64; i++) s += p[i];
    return s;
}

u64 checksum(const u8 *p)
{
    u32 s = 0;
    KEEP for (int i = 0; i < 60; i += 2) s += p[i] << 8 | p[i + 1];
    s = (s & 0xffff) + (s >> 16);
    s = (s & 0xffff) + (s >> 16);
    return (u16)~s;
}

u64 find_byte(const u8 *p)
{
    KEEP for (int i = 1; i < 64; i++) if (p[i] == p[0]) return i;
    return 64;
}

u64 largest(const u8 *p)
{
    u8 m = 0;
    KEEP for (int i = 0; i < 64; i++) if (p[i] > m) m = p[i];
    return m;
}

u64 count_zero(const u8 *p)
{
    u64 n = 0;
    KEEP for (int i = 0; i < 64; i++) n += p[i] == 0;
    return n;
}

u64 xor_words(const u64 *p)
{
    u64 x = 0;
    KEEP for (int i = 0; i < 8; i++) x ^= p[i];
    return x;
}

u64 hash(const u8 *p)
{
    u64 h = 0xcbf29ce484222325;
    KEEP for (int i = 0; i < 32; i++) h = (h ^ p[i]) * 0x100000001b3;
    return h;
}

u64 popcount(const u64 *p)
{
    u64 x = p[0], n = 0;
    KEEP for (int i = 0; i < 64; i++)
    {
        n += x & 1;
        x >>= 1;
    }
    return n;
}

u64 log2_of(const u32 *p)
{
    u64 x = p[0], n = 0;
    KEEP while (x > 1)
    {
        x >>= 1;
        n++;
    }
    return n;
}

u64 compare(const u8 *p)
{
    KEEP for (int i = 0; i < 32; i++) if (p[i] != p[i + 32]) return p[i] < p[i + 32] ? 1 : 2;
    return 0;
}

u64 first_n(const u8 *p)
{
    u64 n = p[0], s = 0;
    if (n > 40) n = 40;
    KEEP for (u64 i = 0; i < n; i++) s = s * 3 + i;
    return s;
}

u64 guarded(const u8 *p)
{
    u64 n = p[0], s = 0;
    if (n > 63) return 0;
    KEEP for (int i = 1; i < 64; i++)
    {
        if (i > n) break;
        s += p[i];
    }
    return s;
}

u64 crc8(const u8 *p)
{
    u8 c = 0;
    KEEP for (int i = 0; i < 8; i++)
    {
        c ^= p[i];
        KEEP for (int k = 0; k < 8; k++) c = c & 0x80 ? c << 1 ^ 7 : c << 1;
    }
    return c;
}

u64 crc32(const u8 *p)
{
    u32 c = ~0u;
    KEEP for (int i = 0; i < 16; i++)
    {
        c ^= p[i];
        KEEP for (int k = 0; k < 8; k++) c = c >> 1 ^ (c & 1 ? 0xedb88320 : 0);
    }
    return ~c;
}

u64 matrix(const u8 *p)
{
    u64 s = 0;
    KEEP for (int i = 0; i < 8; i++) KEEP for (int k = 0; k < 8; k++) if (i <= k) s += p[8 * i + k];
    return s;
}

u64 triangle(const u8 *p)
{
    u64 s = 0;
    KEEP for (int i = 0; i < 8; i++) KEEP for (int k = 0; k < i; k++) s = s * 3 + p[i] * p[k];
    return s;
}

u64 digits(const u8 *p)
{
    u64 x = 0;
    KEEP for (int i = 0; i < 12; i++)
    {
        if (p[i] < '0' || p[i] > '9') break;
        x = x * 10 + p[i] - '0';
    }
    return x;
}

u64 varint(const u8 *p)
{
    u64 x = 0;
    KEEP for (int i = 0; i < 10; i++)
    {
        x |= (u64)(p[i] & 127) << 7 * i;
        if (!(p[i] & 128)) return x;
    }
    return 1;
}

u64 power(const u8 *p)
{
    u64 x = p[0], e = p[1] & 15, r = 1;
    KEEP while (e)
    {
        if (e & 1) r *= x;
        x *= x;
        e >>= 1;
    }
    return r;
}

u64 gcd(const u8 *p)
{
    u64 a = p[0], b = p[1];
    KEEP for (int i = 0; i < 16; i++)
    {
        if (!b) break;
        u64 t = a % b;
        a = b;
        b = t;
    }
    return a;
}

u64 sqrt_of(const u32 *p)
{
    u64 x = p[0], r = 0;
    KEEP for (int i = 15; i >= 0; i--)
    {
        u64 t = r + (1ull << i);
        if (t * t <= x) r = t;
    }
    return r;
}

u64 search(const u8 *p)
{
    KEEP for (int i = 4; i < 61; i++) if (p[i] == p[0] && p[i + 1] == p[1] && p[i + 2] == p[2]) return i;
    return 0;
}

u64 runs(const u8 *p)
{
    u64 best = 0, n = 1;
    KEEP for (int i = 1; i < 48; i++)
    {
        if (p[i] == p[i - 1]) n++;
        else n = 1;
        if (n > best) best = n;
    }
    return best;
}

u64 parity(const u8 *p)
{
    u8 x = 0;
    KEEP for (int i = 0; i < 64; i++) x ^= p[i];
    x ^= x >> 4;
    x ^= x >> 2;
    return (x ^ x >> 1) & 1;
}

u64 collatz(const u8 *p)
{
    u64 x = p[0] + 1, n = 0;
    KEEP for (int i = 0; i < 120; i++)
    {
        if (x == 1) break;
        x = x & 1 ? 3 * x + 1 : x / 2;
        n++;
    }
    return n;
}

u64 countdown(const u8 *p)
{
    u64 n = p[0] & 31, s = 0;
    KEEP while (n != 0)
    {
        s = s * 3 + n;
        n--;
    }
    return s;
}

u64 halving(const u8 *p)
{
    u64 low = 0, high = 64, x = p[0];
    KEEP for (int i = 0; i < 7; i++)
    {
        u64 mid = (low + high) / 2;
        if (mid * mid <= x) low = mid;
        else high = mid;
    }
    return low;
}

u64 adler(const u8 *p)
{
    u32 a = 1, b = 0;
    KEEP for (int i = 0; i < 48; i++)
    {
        a = (a + p[i]) % 65521;
        b = (b + a) % 65521;
    }
    return (u64)b << 16 | a;
}

u64 dot(const u8 *p)
{
    u64 s = 0;
    KEEP for (int i = 0; i < 32; i++) s += p[i] * p[32 + i];
    return s;
}

u64 unbounded(const u64 *p)
{
    u64 x = p[0], n = 0;
    KEEP while (x)
    {
        x &= x - 1;
        n++;
    }
    return n;
}

u64 meeting(const u8 *p)
{
    u64 a = p[0], b = p[1], n = 0;
    KEEP while (a < b)
    {
        a++;
        b--;
        n++;
    }
    return n;
}

u64 stepping(const u8 *p)
{
    u64 n = p[0] & 15, s = 0;
    KEEP for (u64 i = 0; i < 64; i += n + 1) s += i;
    return s;
}

u64 reversed(const u8 *p)
{
    u64 x = 0;
    KEEP for (int i = 7; i >= 0; i--) x = x << 8 | p[i];
    return x;
}

u64 options(const u8 *p)
{
    u64 at = 20, kinds = 0;
    KEEP for (int i = 0; i < 10; i++)
    {
        if (at > 59) break;
        kinds += at;
        at += p[i] & 7;
        if (!(p[i] & 7)) break;
    }
    return kinds;
}

u64 tcp(const u8 *p)
{
    const u8 *at = p + 20;
    KEEP for (int i = 0; i < 40; i++)
    {
        if (at >= p + 60) return 1;
        u8 kind = at[0];
        if (kind == 0) return 2;
        if (kind == 1) {
            at += 1;
            continue;
        }
        if (at + 1 >= p + 60) return 3;
        if (kind == 2) {
            if (at + 4 > p + 60) return 4;
            return at[2] << 8 | at[3];
        }
        switch (at[1]) {
        case 2: at += 2; break;
        case 3: at += 3; break;
        case 4: at += 4; break;
        case 10: at += 10; break;
        default: return 5;
        }
    }
    return 6;
}
