// OpenMP as it is written: barriers, critical sections, reductions and tasks order all accesses.
// add() is right; lose() checks in one critical section and acts in another.
#include <omp.h>
#include <stdio.h>

enum { N = 600, ROUNDS = 10 };
static int cells[N], total, lost;
static double sum;

static void add(int k) {
#pragma omp critical
    total += k;
}
static int look(void) {
    int v;
#pragma omp critical(other)
    v = lost;
    return v;
}
static void set(int v) {
#pragma omp critical(other)
    lost = v;
}
static void lose(void) {
    set(look() + 1);
}
static int cell(int i) {
    return cells[i] * 2;
}
static void fill(int round) {
#pragma omp parallel for schedule(dynamic, 20)
    for (int i = 0; i < N; i++)
        cells[i] = i + round;
}
static void add_up(void) {
#pragma omp parallel for reduction(+ : sum)
    for (int i = 0; i < N; i++)
        sum += cell(N - 1 - i);
}
static void team(void) {
#pragma omp parallel
    {
        add(1);
#pragma omp barrier
        add(2);
#pragma omp barrier
#pragma omp single
        total++;
#pragma omp task
        add(3);
        for (int i = 0; i < 5; i++)
            lose();
    }
}
int main(void) {
    for (int i = 0; i < ROUNDS; i++) {
        fill(i);
        add_up();
        team();
    }
    printf("%d %.0f\n", total, sum);
    return 0;
}
