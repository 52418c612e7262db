/* Framed tree images on standard input; the most stack that molang_build used on any of them. It runs in a thread on a stack that was painted before. */
#define _GNU_SOURCE
#include "molang.h"
#include <pthread.h>
#include <stdio.h>
#include <stdlib.h>
#include <string.h>

#define STACK ((size_t)4 << 20)
#define PAINT 0xA7

static uint8_t tree[MOLANG_TREE_MOST + 1];
static size_t length;
static uint32_t workspace[MOLANG_WORDS];
static uint8_t card[MOLANG_IMAGE_ROOM];

static void *build(void *unused)
{
    molang_build(tree, length, workspace, MOLANG_WORDS, card, sizeof card);
    return unused;
}

static void *nothing(void *unused)
{
    return unused;
}

static size_t used(uint8_t *stack, void *(*run)(void *))
{
    pthread_attr_t attributes;
    pthread_t thread;
    memset(stack, PAINT, STACK);
    pthread_attr_init(&attributes);
    pthread_attr_setstack(&attributes, stack, STACK);
    if (pthread_create(&thread, &attributes, run, NULL) != 0 || pthread_join(thread, NULL) != 0)
        exit(1);
    size_t clean = 0;
    while (clean < STACK && stack[clean] == PAINT)
        clean++;
    return STACK - clean;
}

int main(void)
{
    uint8_t n[4];
    uint8_t *stack = (uint8_t *)aligned_alloc(4096, STACK);
    size_t own = used(stack, nothing), most = 0, trees = 0;
    while (fread(n, 1, 4, stdin) == 4) {
        length = (size_t)n[0] << 24 | (size_t)n[1] << 16 | (size_t)n[2] << 8 | n[3];
        if (length > sizeof tree || fread(tree, 1, length, stdin) != length)
            return 1;
        size_t now = used(stack, build) - own;
        most = now > most ? now : most;
        trees++;
    }
    printf("%zu trees, at most %zu bytes of stack\n", trees, most);
    return 0;
}
