/*
 * Every call on a register in a thread that has no more stack than the header names: STACK, in KB.
 */
#include <imbrolt.h>
#include <pthread.h>
#include <stdio.h>

static imbrolt_register reg;

static void *calls(void *wrong)
{
    static const uint8_t key[] = "K2";
    static const int32_t octaves[] = { 240, 330, 400, 430, 440 };
    int32_t out[IMBROLT_BILL_PLACES];

    if (imbrolt_open_register(&reg) != IMBROLT_OK ||
        imbrolt_bill(&reg, 7, key, 2, IMBROLT_A1, octaves, 5, 0, 500, out, IMBROLT_BILL_PLACES) != IMBROLT_OK ||
        imbrolt_owed(&reg, 7, out, IMBROLT_OWED_PLACES) != IMBROLT_OK || out[IMBROLT_OWED_TOTAL] != 500 ||
        imbrolt_close(&reg, 7, out, IMBROLT_OWED_PLACES) != IMBROLT_OK || out[IMBROLT_OWED_TOTAL] != 500)
        *(int *)wrong = 1;
    return NULL;
}

int main(void)
{
    pthread_attr_t attributes;
    pthread_t thread;
    int wrong = 0;

    if (pthread_attr_init(&attributes) != 0 || pthread_attr_setstacksize(&attributes, (size_t)STACK * 1024) != 0 ||
        pthread_create(&thread, &attributes, calls, &wrong) != 0 || pthread_join(thread, NULL) != 0) {
        puts("no thread");
        return 1;
    }
    return wrong;
}
