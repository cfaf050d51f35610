/* Sorting records of the heap: the library's qsort by several orders, a merge sort of a list, a heap sort, and binary search. */
#include <stdio.h>
#include <stdlib.h>
#include <string.h>

enum { RECORDS = 400, ROUNDS = 1 };

typedef struct record {
    struct record *next;
    unsigned key;
    char name[12];
    double weight;
} Record;

static Record *records[RECORDS];
static unsigned state = 9;

static unsigned next_random(void)
{
    state = state * 1664525u + 1013904223u;
    return state >> 8;
}

static void make_records(void)
{
    for (int i = 0; i < RECORDS; i++) {
        Record *made = malloc(sizeof *made);
        if (made == NULL)
            exit(2);
        made->next = NULL;
        made->key = next_random() % 5000;
        made->weight = (double)(next_random() % 1000) / 8;
        sprintf(made->name, "r%u", next_random() % 100000);
        records[i] = made;
    }
}

static int by_key(const void *a, const void *b)
{
    unsigned left = (*(Record *const *)a)->key, right = (*(Record *const *)b)->key;
    return (left > right) - (left < right);
}

static int by_name(const void *a, const void *b)
{
    int order = strcmp((*(Record *const *)a)->name, (*(Record *const *)b)->name);
    return order != 0 ? order : by_key(a, b);
}

static int by_weight(const void *a, const void *b)
{
    double left = (*(Record *const *)a)->weight, right = (*(Record *const *)b)->weight;
    return left < right ? -1 : left > right ? 1 : by_name(a, b);
}

static Record *merged(Record *a, Record *b)
{
    Record *first = NULL, **end = &first;
    while (a != NULL && b != NULL) {
        Record **least = by_name(&a, &b) <= 0 ? &a : &b;
        *end = *least;
        end = &(*least)->next;
        *least = (*least)->next;
    }
    *end = a != NULL ? a : b;
    return first;
}

static Record *sorted(Record *list, int count)
{
    if (count < 2) {
        if (list != NULL)
            list->next = NULL;
        return list;
    }
    Record *half = list;
    for (int i = 0; i < count / 2; i++)
        half = half->next;
    return merged(sorted(list, count / 2), sorted(half, count - count / 2));
}

static void sink_down(int at, int count)
{
    for (int child; (child = 2 * at + 1) < count; at = child) {
        if (child + 1 < count && by_weight(&records[child], &records[child + 1]) < 0)
            child++;
        if (by_weight(&records[at], &records[child]) >= 0)
            return;
        Record *held = records[at];
        records[at] = records[child];
        records[child] = held;
    }
}

static void heap_sort(void)
{
    for (int at = RECORDS / 2 - 1; at >= 0; at--)
        sink_down(at, RECORDS);
    for (int count = RECORDS - 1; count > 0; count--) {
        Record *held = records[0];
        records[0] = records[count];
        records[count] = held;
        sink_down(0, count);
    }
}

static unsigned hash_of(void)
{
    unsigned hash = 2166136261u;
    for (int i = 0; i < RECORDS; i++)
        hash = (hash ^ records[i]->key) * 16777619u;
    return hash;
}

static void sort_list(void)
{
    for (int i = 0; i < RECORDS; i++)
        records[i]->next = i + 1 < RECORDS ? records[i + 1] : NULL;
    Record *list = sorted(records[0], RECORDS);
    for (int i = 0; i < RECORDS; i++, list = list->next)
        records[i] = list;
}

static int found(void)
{
    int count = 0;
    Record sought, *at = &sought;
    for (sought.key = 0; sought.key < 5000; sought.key += 7)
        count += bsearch(&at, records, RECORDS, sizeof *records, by_key) != NULL;
    return count;
}

int main(void)
{
    make_records();
    for (int round = 0; round < ROUNDS; round++) {
        qsort(records, RECORDS, sizeof *records, by_name);
        printf("name   %08x first %s\n", hash_of(), records[0]->name);
        heap_sort();
        printf("weight %08x last %.3f\n", hash_of(), records[RECORDS - 1]->weight);
        sort_list();
        printf("list   %08x\n", hash_of());
        qsort(records, RECORDS, sizeof *records, by_key);
        printf("key    %08x found %d\n", hash_of(), found());
    }
    return 0;
}
