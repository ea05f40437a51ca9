// A program of its own for the rewriting of whole modules: loops, branch tables, calls by table,
// floats, long numbers, and bulk copies of memory. `run` answers one number for a seed.
typedef unsigned char u8;
typedef unsigned int u32;
typedef unsigned long long u64;

static u32 state;

static u32 next(void) {
    state ^= state << 13;
    state ^= state >> 17;
    state ^= state << 5;
    return state;
}

// SHA-256.

static const u32 K[64] = {
    0x428a2f98, 0x71374491, 0xb5c0fbcf, 0xe9b5dba5, 0x3956c25b, 0x59f111f1, 0x923f82a4, 0xab1c5ed5,
    0xd807aa98, 0x12835b01, 0x243185be, 0x550c7dc3, 0x72be5d74, 0x80deb1fe, 0x9bdc06a7, 0xc19bf174,
    0xe49b69c1, 0xefbe4786, 0x0fc19dc6, 0x240ca1cc, 0x2de92c6f, 0x4a7484aa, 0x5cb0a9dc, 0x76f988da,
    0x983e5152, 0xa831c66d, 0xb00327c8, 0xbf597fc7, 0xc6e00bf3, 0xd5a79147, 0x06ca6351, 0x14292967,
    0x27b70a85, 0x2e1b2138, 0x4d2c6dfc, 0x53380d13, 0x650a7354, 0x766a0abb, 0x81c2c92e, 0x92722c85,
    0xa2bfe8a1, 0xa81a664b, 0xc24b8b70, 0xc76c51a3, 0xd192e819, 0xd6990624, 0xf40e3585, 0x106aa070,
    0x19a4c116, 0x1e376c08, 0x2748774c, 0x34b0bcb5, 0x391c0cb3, 0x4ed8aa4a, 0x5b9cca4f, 0x682e6ff3,
    0x748f82ee, 0x78a5636f, 0x84c87814, 0x8cc70208, 0x90befffa, 0xa4506ceb, 0xbef9a3f7, 0xc67178f2,
};

static u32 rotate(u32 x, int n) { return x >> n | x << (32 - n); }

static void sha256_block(u32 h[8], const u8 *block) {
    u32 w[64], s[8];
    for (int i = 0; i < 16; i++)
        w[i] = (u32)block[4 * i] << 24 | block[4 * i + 1] << 16 | block[4 * i + 2] << 8 | block[4 * i + 3];
    for (int i = 16; i < 64; i++) {
        u32 a = rotate(w[i - 15], 7) ^ rotate(w[i - 15], 18) ^ w[i - 15] >> 3;
        u32 b = rotate(w[i - 2], 17) ^ rotate(w[i - 2], 19) ^ w[i - 2] >> 10;
        w[i] = w[i - 16] + a + w[i - 7] + b;
    }
    for (int i = 0; i < 8; i++) s[i] = h[i];
    for (int i = 0; i < 64; i++) {
        u32 t = s[7] + (rotate(s[4], 6) ^ rotate(s[4], 11) ^ rotate(s[4], 25)) + ((s[4] & s[5]) ^ (~s[4] & s[6])) + K[i] + w[i];
        u32 v = (rotate(s[0], 2) ^ rotate(s[0], 13) ^ rotate(s[0], 22)) + ((s[0] & s[1]) ^ (s[0] & s[2]) ^ (s[1] & s[2]));
        for (int j = 7; j > 0; j--) s[j] = s[j - 1];
        s[4] += t;
        s[0] = t + v;
    }
    for (int i = 0; i < 8; i++) h[i] += s[i];
}

__attribute__((noinline)) static u32 digest(const u8 *bytes, u32 blocks) {
    u32 h[8] = {0x6a09e667, 0xbb67ae85, 0x3c6ef372, 0xa54ff53a, 0x510e527f, 0x9b05688c, 0x1f83d9ab, 0x5be0cd19};
    for (u32 i = 0; i < blocks; i++) sha256_block(h, bytes + 64 * i);
    return h[0] ^ h[3] ^ h[7];
}

// Quicksort, by comparisons that are called through a table.

typedef int (*compare)(int, int);
static int ascending(int a, int b) { return a < b; }
static int descending(int a, int b) { return a > b; }
static int by_low_byte(int a, int b) { return (a & 255) < (b & 255); }
static compare comparisons[] = {ascending, descending, by_low_byte};

__attribute__((noinline)) static void sort(int *items, int from, int to, compare less) {
    while (from < to) {
        int pivot = items[(from + to) / 2], i = from, j = to;
        do {
            while (less(items[i], pivot)) i++;
            while (less(pivot, items[j])) j--;
            if (i <= j) {
                int kept = items[i];
                items[i++] = items[j];
                items[j--] = kept;
            }
        } while (i <= j);
        sort(items, from, j, less);
        from = i;
    }
}

// A machine with a stack.

enum { PUSH, ADD, SUB, MUL, DUP, SWAP, JUMP_IF, DROP, MOD, HALT };

__attribute__((noinline)) static long long interpret(const u8 *code, long long input) {
    long long stack[32];
    int top = 0;
    stack[top++] = input;
    for (int at = 0, fuel = 10000; fuel > 0; fuel--) {
        long long a = stack[top - 1], b = top > 1 ? stack[top - 2] : 0;
        switch (code[at++]) {
        case PUSH: stack[top++] = code[at++]; break;
        case ADD: stack[--top - 1] = b + a; break;
        case SUB: stack[--top - 1] = b - a; break;
        case MUL: stack[--top - 1] = b * a; break;
        case DUP: stack[top++] = a; break;
        case SWAP: stack[top - 1] = b; stack[top - 2] = a; break;
        case JUMP_IF: top--; if (a) at = code[at]; else at++; break;
        case DROP: top--; break;
        case MOD: stack[--top - 1] = a ? b % a : -1; break;
        default: return stack[top - 1];
        }
    }
    return -1;
}

static const u8 PROGRAM[] = {PUSH, 1, SWAP, DUP, PUSH, 1, SUB, SWAP, DUP, PUSH, 7, MOD, DROP, DROP, DUP, JUMP_IF, 2, ADD, HALT};

// Floats.

__attribute__((noinline)) static double root(double x) {
    double y = x > 1 ? x : 1;
    for (int i = 0; i < 40; i++) y = 0.5 * (y + x / y);
    return y;
}

__attribute__((noinline)) static float product(int n) {
    static float a[12][12], b[12][12];
    float trace = 0;
    for (int i = 0; i < n; i++)
        for (int j = 0; j < n; j++) {
            a[i][j] = (float)(next() & 1023) / 64;
            b[i][j] = (float)(int)(next() & 255) - 128;
        }
    for (int i = 0; i < n; i++)
        for (int k = 0; k < n; k++) trace += a[i][k] * b[k][i];
    return trace;
}

// Text: a number in decimal, and back.

__attribute__((noinline)) static int to_text(u64 number, char *out) {
    char digits[24];
    int count = 0, written = 0;
    do digits[count++] = '0' + number % 10; while (number /= 10);
    while (count) out[written++] = digits[--count];
    return written;
}

__attribute__((noinline)) static u64 from_text(const char *text, int len) {
    u64 number = 0;
    for (int i = 0; i < len; i++) {
        if (text[i] < '0' || text[i] > '9') return ~0ull;
        number = number * 10 + (text[i] - '0');
    }
    return number;
}

static u8 bytes[4096], copy[4096];
static int items[512];

__attribute__((export_name("run"))) u64 run(u32 seed) {
    state = seed | 1;
    for (int i = 0; i < 4096; i++) bytes[i] = next() >> 11;
    __builtin_memcpy(copy, bytes + (seed & 63), 4000);
    __builtin_memset(bytes, seed & 255, 512);
    u64 answer = digest(copy, 60) * 31ull + digest(bytes, 64);
    for (int k = 0; k < 3; k++) {
        for (int i = 0; i < 512; i++) items[i] = (int)next();
        sort(items, 0, 511, comparisons[(k + seed) % 3]);
        answer = answer * 1000003 + (u32)(items[7] ^ items[400]);
    }
    answer += interpret(PROGRAM, seed % 100 + 2);
    answer ^= (u64)(root(seed % 1000) * 1e9);
    answer += (long long)(product(12) * 16);
    char text[24];
    int len = to_text(answer, text);
    return from_text(text, len) == answer ? answer : 0;
}
