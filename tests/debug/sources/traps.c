/* Functions that trap, each called by another one. A comment names the function that has the operator of its line. */
static int total;

__attribute__((noinline)) static int quotient(int dividend, int divisor) {
    int sum = dividend + total;
    total = sum;
    return sum / divisor; /* of quotient */
}

static inline __attribute__((always_inline)) int rest_of(int dividend, int divisor) {
    total += dividend;
    return total % divisor; /* of rest_of */
}

__attribute__((noinline)) static void stop_after(int value) {
    if (value > 2) {
        total = value;
        __builtin_trap(); /* of stop_after */
    }
    total--;
}

int divides(int dividend, int divisor) {
    int first = dividend * 3;
    total += first;
    return quotient(first, divisor) + 1; /* of divides */
}

int stops(int turns, int step) {
    for (int turn = 0; turn < turns; turn += step)
        stop_after(turn); /* of stops */
    return total;
}

int inlines(int dividend, int divisor) {
    int twice = dividend * 2;
    total ^= twice;
    return rest_of(twice, divisor) - total; /* of inlines */
}
