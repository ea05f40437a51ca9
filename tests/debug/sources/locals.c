/* Functions with many locals of several types: the numbers of locals change where they are grouped by type, and some become one byte longer. */
extern void outside_all(void);

#define EACH(M) M(0) M(1) M(2) M(3) M(4) M(5) M(6) M(7) M(8) M(9) M(10) M(11) M(12) M(13) M(14) M(15) M(16) M(17) M(18) M(19) M(20) M(21) M(22) \
    M(23) M(24) M(25) M(26) M(27) M(28) M(29) M(30) M(31) M(32) M(33) M(34) M(35) M(36) M(37) M(38) M(39)
#define TAKEN(N) \
    int whole##N = wholes[N]; \
    double real##N = reals[N]; \
    long long wide##N = wides[N]; \
    float small##N = smalls[N];
#define GIVEN(N) \
    wholes[N] = whole##N + (int)real##N; \
    reals[N] = real##N * small##N; \
    wides[N] = wide##N ^ whole##N; \
    smalls[N] = small##N + 1;

void many(int *wholes, double *reals, long long *wides, float *smalls) {
    EACH(TAKEN)
    outside_all();
    EACH(GIVEN)
}

/* its locals are used after `unreachable` alone */
int gone(int value) {
    __asm__ volatile("unreachable");
    int whole = value * 3;
    outside_all();
    double real = whole + 0.5;
    outside_all();
    return (int)real + whole;
}
