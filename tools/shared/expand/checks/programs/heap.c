#include <stdio.h>
#include <stdlib.h>
#include <string.h>

struct node {
    struct node *left, *right;
    unsigned key;
};

static struct node *insert(struct node *at, unsigned key)
{
    if (at == NULL) {
        at = calloc(1, sizeof *at);
        at->key = key;
    } else if (key < at->key) {
        at->left = insert(at->left, key);
    } else {
        at->right = insert(at->right, key);
    }
    return at;
}

static unsigned leave(struct node *at)
{
    if (at == NULL)
        return 0;
    unsigned sum = leave(at->left) + 3 * at->key + leave(at->right);
    free(at);
    return sum;
}

int main(void)
{
    unsigned total = 0;
    for (unsigned round = 0; round < 3; round++) {
        struct node *tree = NULL;
        for (unsigned i = 0; i < 200; i++)
            tree = insert(tree, (i * 7919 + round) % 1009);
        total += leave(tree);
    }
    char *text = NULL;
    for (size_t length = 1; length < 3000; length *= 3) {
        text = realloc(text, length + 1);
        memset(text, 'a' + length % 26, length);
        text[length] = 0;
    }
    printf("%u %zu %c\n", total, strlen(text), text[0]);
    free(text);
    return 0;
}
