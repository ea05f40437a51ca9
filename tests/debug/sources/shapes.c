/* A unit of C: structures, inlined functions, loops, a switch, scopes, variables in locals and in memory, operators that are dropped, and
   functions that nothing calls. */
struct point {
    int x, y;
    long long z;
    struct point *next;
};

enum kind { ROUND, SQUARE, OTHER };

union both {
    float number;
    unsigned bits;
};

extern int outside(int);
extern int second(int, const struct point *);

int table[4] = {1, 2, 3, 4};
static int calls;
struct point origin = {1, 2, 3, 0};

static inline __attribute__((always_inline)) int twice(int value) {
    int doubled = value * 2;
    return doubled + outside(doubled);
}

static inline __attribute__((always_inline)) int four_times(int value) {
    int once = twice(value);
    return twice(once) - value;
}

__attribute__((noinline)) int seen(int value) {
    calls++;
    return table[value & 3] + value;
}

/* nothing calls it: the linker drops it */
int unused(int count) {
    int result = 0;
    for (int i = 0; i < count; i++) {
        int square = i * i;
        result += seen(square);
    }
    return result;
}

int sum(struct point *points, int count) {
    int result = 0;
    for (int i = 0; i < count; i++) {
        struct point at = points[i];
        result += four_times(at.x) ^ at.y;
        if (result > 100) {
            long long far = at.z;
            result -= (int)(far / 3);
        }
    }
    return result;
}

int chosen(enum kind kind, int value) {
    int result = value;
    switch (kind) {
    case ROUND:
        result += seen(1);
        break;
    case SQUARE: {
        int side = outside(value);
        result += side * side;
        break;
    }
    case OTHER:
        result = seen(seen(value));
        /* falls through */
    default:
        result ^= 5;
    }
    while (result > 1000) {
        result /= 3;
        if (result == 77)
            return seen(result);
    }
    return result;
}

unsigned as_bits(float number) {
    union both both;
    both.number = number;
    return both.bits ^ (both.bits >> 3);
}

/* what comes after `unreachable` and `return` is dropped: calls, locals and the ranges of scopes */
int dropped(int value) {
    int before = outside(value);
    __asm__ volatile("nop");
    if (before > 3) {
        __asm__ volatile("unreachable");
        int lost = outside(before);
        int more = four_times(lost);
        before += outside(lost + more) * more;
    }
    __asm__ volatile("nop\n\tnop");
    return before + second(before, &origin);
}

int start(int value) {
    struct point points[3] = {{value, 2, 3, 0}, {4, 5, 6, 0}, {7, 8, 9, 0}};
    points[0].next = &points[1];
    return sum(points, 3) + chosen(value & 3, value) + dropped(value) + (int)as_bits((float)value) + second(value, points);
}
