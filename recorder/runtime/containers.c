// The links between the nodes of std::map, std::set and std::list, which libstdc++ changes in code
// that has no hooks: they are written by who calls it. What is known before is told before; what a
// tree's balance changes is told once it is done.
#include "runtime.h"

#define CALLED(name, type, parameters)                                                             \
    type name parameters;                                                                          \
    API type name parameters

static void reads(const void *link, u64 code) {
    note_read(link, sizeof(void *), code);
}
static void writes(void *link, u64 code) {
    note_write(link, sizeof(void *), code);
}

// ---- trees: the header's parent is the root, its left and right are the first and the last node
#define STEPS 96 // more than any tree is deep
struct tree {
    int color;
    struct tree *parent, *left, *right;
};
struct path {
    int steps;
    struct tree *root;
    struct {
        struct tree *node, *left, *right;
    } step[STEPS];
};
static void keep_path(struct path *path, struct tree *node, struct tree *header) {
    path->steps = 0;
    path->root = header->parent;
    for (; node && node != header && path->steps < STEPS; node = node->parent) {
        int i = path->steps++;
        path->step[i].node = node, path->step[i].left = node->left,
        path->step[i].right = node->right;
    }
}
static void tell_rotations(struct path *path, struct tree *header, u64 code) {
    if (header->parent != path->root)
        writes(&header->parent, code);
    for (int i = 0; i < path->steps; i++) {
        struct tree *node = path->step[i].node;
        if (node->left != path->step[i].left)
            writes(&node->left, code);
        if (node->right != path->step[i].right)
            writes(&node->right, code);
    }
    note_done();
}
static void tell_extremes(struct tree *header, int first, int last, u64 code) {
    if (first)
        writes(&header->left, code);
    if (last)
        writes(&header->right, code);
}

#define INSERT _ZSt29_Rb_tree_insert_and_rebalancebPSt18_Rb_tree_node_baseS0_RS_
#define ERASE _ZSt28_Rb_tree_rebalance_for_erasePSt18_Rb_tree_node_baseRS_
#define REAL_OF(name) REAL(name)
#define CALL_OF(name) real_##name
#define CALL(name) CALL_OF(name)

CALLED(INSERT, void, (_Bool left, struct tree *node, struct tree *parent, struct tree *header)) {
    REAL_OF(INSERT);
    u64 code = CALLER;
    if (parent == header) {
        writes(&header->parent, code);
        tell_extremes(header, 1, 1, code);
    } else {
        writes(left ? &parent->left : &parent->right, code);
        tell_extremes(header, left && parent == header->left, !left && parent == header->right,
                      code);
    }
    struct path path;
    keep_path(&path, parent, header);
    note_done();
    CALL(INSERT)(left, node, parent, header);
    // the new link was told
    if (path.steps)
        *(left ? &path.step[0].left : &path.step[0].right) = left ? parent->left : parent->right;
    else
        path.root = header->parent;
    tell_rotations(&path, header, code);
}
// Where the link to a node stands.
static struct tree **link_to(struct tree *node, struct tree *header) {
    struct tree *parent = node->parent;
    if (header->parent == node)
        return &header->parent;
    return parent->left == node ? &parent->left : &parent->right;
}
CALLED(ERASE, struct tree *, (struct tree * node, struct tree *header)) {
    REAL_OF(ERASE);
    u64 code = CALLER;
    writes(link_to(node, header), code);
    tell_extremes(header, header->left == node, header->right == node, code);
    struct tree *next = node->right;
    if (node->left && next) { // the next node takes its place
        while (next->left)
            next = next->left;
        writes(&next->left, code);
        if (next != node->right) {
            writes(&next->parent->left, code);
            writes(&next->right, code);
        }
    }
    struct path path;
    keep_path(&path, node->parent, header);
    note_done();
    struct tree *erased = CALL(ERASE)(node, header);
    tell_rotations(&path, header, code);
    return erased;
}

// ---- lists
struct list {
    struct list *next, *prev;
};
#define HOOK _ZNSt8__detail15_List_node_base7_M_hookEPS0_
#define UNHOOK _ZNSt8__detail15_List_node_base9_M_unhookEv
#define TRANSFER _ZNSt8__detail15_List_node_base11_M_transferEPS0_S1_

CALLED(HOOK, void, (struct list * node, struct list *position)) {
    REAL_OF(HOOK);
    u64 code = CALLER;
    reads(&position->prev, code);
    writes(&position->prev->next, code);
    writes(&position->prev, code);
    note_done();
    CALL(HOOK)(node, position);
}
CALLED(UNHOOK, void, (struct list * node)) {
    REAL_OF(UNHOOK);
    u64 code = CALLER;
    reads(&node->next, code);
    reads(&node->prev, code);
    writes(&node->prev->next, code);
    writes(&node->next->prev, code);
    note_done();
    CALL(UNHOOK)(node);
}
CALLED(TRANSFER, void, (struct list * position, struct list *first, struct list *last)) {
    REAL_OF(TRANSFER);
    u64 code = CALLER;
    if (position != last) {
        writes(&last->prev->next, code);
        writes(&first->prev->next, code);
        writes(&position->prev->next, code);
        writes(&position->prev, code);
        writes(&last->prev, code);
        writes(&first->prev, code);
    }
    note_done();
    CALL(TRANSFER)(position, first, last);
}
