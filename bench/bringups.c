/* The end of `bringups` in plain C, which also goes from one timer to the next: 'bringups N'. */
#include <stdint.h>
#include <stdio.h>
#include <stdlib.h>

enum phase { UNSTARTED, SENDING_COMINIT, AWAITING, SENDING_COMSAS, FALLING, NEGOTIATING, READY, FAILED };
enum { NONE, COMWAKE, COMINIT, COMSAS };
struct end {
    enum phase phase;
    uint32_t elapsed, idle;
    int rates, burst, signal, alike, cominit, comsas, fallen;
    int rate, last, follows, locked, aligned;
};

static int supports(const struct end *e, int rate) { return rate >= 1 && rate <= 3 && e->rates >> (rate - 1) & 1; }
static int highest(const struct end *e) { return e->rates & 4 ? 3 : e->rates & 2 ? 2 : 1; }
static void enter(struct end *e, enum phase phase) { e->phase = phase, e->elapsed = 0; }
static void open_window(struct end *e, int rate, int last, int follows)
{
    enter(e, NEGOTIATING);
    e->rate = rate, e->last = last, e->follows = follows, e->locked = e->aligned = 0;
}
static void close_window(struct end *e)
{
    if (e->last) enter(e, e->aligned ? READY : FAILED);
    else if (e->aligned) open_window(e, e->rate + 1, 0, 1);
    else if (e->follows) open_window(e, e->rate - 1, 1, 0);
    else if (e->rate == highest(e) + 1) enter(e, FAILED);
    else open_window(e, e->rate + 1, 0, 0);
}
static void settle(struct end *e)
{
    switch (e->phase) {
    case SENDING_COMINIT:
        if (e->elapsed >= 9255) enter(e, e->cominit || e->comsas ? SENDING_COMSAS : AWAITING);
        break;
    case AWAITING:
        if (e->cominit || e->comsas) enter(e, SENDING_COMSAS);
        break;
    case SENDING_COMSAS:
        if (e->elapsed < 23925) break;
        if (e->fallen) open_window(e, 1, 0, 0);
        else enter(e, FALLING);
        break;
    case FALLING:
        if (e->fallen) open_window(e, 1, 0, 0);
        else if (!e->comsas && e->elapsed >= 32640) enter(e, FAILED);
        break;
    case NEGOTIATING:
        if (e->elapsed >= 328640) close_window(e);
        break;
    default:
        break;
    }
}
/* ticks until the next timer, at least one */
static uint32_t next_timer(const struct end *e)
{
    uint32_t due = UINT32_MAX;
    if (e->phase == SENDING_COMINIT) due = 9255 - e->elapsed;
    else if (e->phase == SENDING_COMSAS) due = 23925 - e->elapsed;
    else if (e->phase == FALLING && !e->comsas) due = 32640 - e->elapsed;
    else if (e->phase == NEGOTIATING) due = 328640 - e->elapsed;
    if (!e->burst && e->comsas && !e->fallen && 4725 - e->idle < due) due = 4725 - e->idle;
    return due;
}
static void advance(struct end *e, uint32_t ticks)
{
    while (ticks) {
        uint32_t step = next_timer(e);
        if (step > ticks) step = ticks;
        e->elapsed += step;
        if (!e->burst) {
            e->idle = e->idle + step < 4725 ? e->idle + step : 4725;
            if (e->comsas && e->idle == 4725) e->fallen = 1;
        }
        settle(e);
        ticks -= step;
    }
}
static void rise(struct end *e)
{
    if (e->burst) return;
    int signal = e->idle < 165 ? NONE : e->idle < 525 ? COMWAKE : e->idle < 1575 ? COMINIT : e->idle < 4725 ? COMSAS : NONE;
    e->alike = signal == NONE ? 0 : signal == e->signal ? e->alike + 1 : 1;
    e->signal = signal, e->burst = 1;
    if (e->alike >= 4 && signal == COMINIT) e->cominit = 1;
    if (e->alike >= 4 && signal == COMSAS) e->comsas = 1;
    if (e->phase == AWAITING && (e->cominit || e->comsas)) enter(e, SENDING_COMSAS);
}
static int start(struct end *e, unsigned rates)
{
    if (!rates || rates > 7) return 8;
    if (e->phase != UNSTARTED) return 9;
    *e = (struct end){ .phase = SENDING_COMINIT, .rates = rates };
    return 0;
}
static int note(struct end *e, uint32_t ticks, unsigned sign)
{
    if (ticks > 400000) return 10;
    if (sign > 4) return 11;
    if (e->phase == UNSTARTED) return 12;
    advance(e, ticks);
    if (sign == 1) rise(e);
    else if (sign == 2) e->burst = 0, e->idle = 0;
    else if (e->phase != NEGOTIATING) return 0;
    else if (sign == 3) e->locked |= supports(e, e->rate) && e->elapsed >= 960 && e->elapsed <= 960 + 313425;
    else if (sign == 4) e->aligned |= e->locked;
    return 0;
}

static void note_signal(struct end *e, uint32_t idle, uint32_t closing)
{
    for (int k = 0; k < 6; k++) {
        note(e, idle, 1);
        note(e, 320, 2);
    }
    note(e, closing, 0);
}

int main(int argc, char **argv)
{
    uint64_t rounds = argc > 1 ? strtoull(argv[1], 0, 10) : 1, ready = 0, rates = 0;
    for (uint64_t round = 0; round < rounds; round++) {
        struct end e = { 0 };
        uint32_t lock = round % 1000 + 1000;
        start(&e, 7);
        note_signal(&e, 960, 1575);
        note_signal(&e, 2880, 4725);
        for (int k = 0; k < 5; k++) {
            note(&e, lock, 3);
            note(&e, 200, 4);
            note(&e, 328440 - lock, 0);
        }
        if (e.phase == READY) ready++, rates += e.rate;
    }
    printf("%llu ready, sum of rates %llu\n", (unsigned long long)ready, (unsigned long long)rates);
    return 0;
}
