/* Another unit, with names that the first has too. */
struct point {
    int x, y;
    long long z;
    struct point *next;
};

extern int outside(int);

static const char text[] = "second";
static int calls = 7;

static inline int twice(int value) {
    return value * 2 + outside(value);
}

/* nothing calls it: the linker drops it */
int unused_too(int value) {
    int result = twice(value);
    return result + outside(result);
}

int second(int value, const struct point *at) {
    int result = calls++;
    for (const struct point *it = at; it; it = it->next) {
        int here = twice(it->x) + value;
        result += here;
    }
    return result + text[value & 3];
}
