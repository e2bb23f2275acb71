// Holds the proved root against the processor's, over all 2^32 bit patterns, and times both.
#include <math.h>
#include <pthread.h>
#include <stdint.h>
#include <stdio.h>
#include <string.h>
#include <time.h>

extern float numbers_root(float x);

enum { THREADS = 2, TIMED = 50000000 };

static float of_bits(uint32_t n) {
    float x;
    memcpy(&x, &n, sizeof x);
    return x;
}

static uint32_t to_bits(float x) {
    uint32_t n;
    memcpy(&n, &x, sizeof n);
    return n;
}

// The same bits, or two NaNs.
static int same(float a, float b) {
    return (a != a && b != b) || to_bits(a) == to_bits(b);
}

struct Part {
    uint64_t from, to, differ;
    uint32_t first;
};

static void *compare(void *arg) {
    struct Part *part = arg;
    for (uint64_t n = part->from; n < part->to; n++) {
        float x = of_bits((uint32_t)n);
        if (!same(numbers_root(x), sqrtf(x)) && part->differ++ == 0) part->first = (uint32_t)n;
    }
    return NULL;
}

static double now_ns(void) {
    struct timespec t;
    clock_gettime(CLOCK_MONOTONIC, &t);
    return 1e9 * (double)t.tv_sec + (double)t.tv_nsec;
}

// Nanoseconds for each of many roots in a row, each argument made of the root before.
static double latency(float (*root)(float)) {
    float y = 2.0f;
    double start = now_ns();
    for (int i = 0; i < TIMED; i++) y = root(y) + (float)(i & 1023);
    double ns = (now_ns() - start) / TIMED;
    return y < 0.0f ? 0.0 : ns;
}

int main(void) {
    struct Part parts[THREADS];
    pthread_t threads[THREADS];
    uint64_t all = (uint64_t)1 << 32, differ = 0;
    for (int i = 0; i < THREADS; i++) {
        parts[i] = (struct Part){all / THREADS * i, all / THREADS * (i + 1), 0, 0};
        pthread_create(&threads[i], NULL, compare, &parts[i]);
    }
    for (int i = 0; i < THREADS; i++) {
        pthread_join(threads[i], NULL);
        if (parts[i].differ != 0) {
            float x = of_bits(parts[i].first);
            printf("first at %08X: %08X, and the processor's is %08X\n", parts[i].first, to_bits(numbers_root(x)), to_bits(sqrtf(x)));
        }
        differ += parts[i].differ;
    }
    printf("root %.1f ns, the processor's %.1f ns\n", latency(numbers_root), latency(sqrtf));
    printf("%llu patterns, %llu differ\n", (unsigned long long)all, (unsigned long long)differ);
    return differ != 0;
}
