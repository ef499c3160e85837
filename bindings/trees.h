/* Trees of nodes in an order: splay trees (D. Sleator, R. Tarjan: Self-adjusting binary search trees, 1985). A node that is asked for comes to
 * the root, by which each call takes time log n in the mean of many. */
#ifndef GWB_TREES_H
#define GWB_TREES_H
#include <stdint.h>

/* A node, by the places of others in one array: 0 is none. */
struct tree_node {
    uint32_t parent, children[2];
};

static inline void tree_hang(struct tree_node *tree, uint32_t parent, int side, uint32_t child)
{
    tree[parent].children[side] = child;
    tree[child].parent = parent;
}

/* Changes places with the node above it. */
static inline void tree_raise(struct tree_node *tree, uint32_t node)
{
    uint32_t below = tree[node].parent, parent = tree[below].parent;
    int side = tree[below].children[1] == node;
    if (parent != 0)
        tree[parent].children[tree[parent].children[1] == below] = node;
    tree_hang(tree, below, side, tree[node].children[!side]);
    tree_hang(tree, node, !side, below);
    tree[node].parent = parent;
}

/* Brings a node to the root of its tree. */
static inline void tree_splay(struct tree_node *tree, uint32_t node)
{
    for (uint32_t above = tree[node].parent; above != 0; above = tree[node].parent) {
        uint32_t parent = tree[above].parent;
        bool is_straight = (tree[above].children[1] == node) == (tree[parent].children[1] == above);
        if (parent != 0)
            tree_raise(tree, is_straight ? above : node);
        tree_raise(tree, node);
    }
}

/* Parts the nodes after a node, which becomes its tree's root, from that: the root of theirs. */
static inline uint32_t tree_split(struct tree_node *tree, uint32_t node)
{
    tree_splay(tree, node);
    uint32_t after = tree[node].children[1];
    tree[node].children[1] = tree[after].parent = 0;
    return after;
}

/* Puts the nodes of one tree behind those of another, both given by their roots: the root of all. */
static inline uint32_t tree_join(struct tree_node *tree, uint32_t one, uint32_t other)
{
    if (one == 0)
        return other;
    while (tree[one].children[1] != 0)
        one = tree[one].children[1];
    tree_splay(tree, one);
    tree_hang(tree, one, 1, other);
    return one;
}

#endif
