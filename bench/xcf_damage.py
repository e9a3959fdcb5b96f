"""Which parts of which pictures an edit changes, by the rules of docs/SCRIPTS.md.

A pair is (stack, (left, top, right, bottom)): a stack, 0 being the image, and a rectangle of the canvas. Hidden nodes
count like visible ones.
"""

from xcf_drafts import all_nodes

RECTS = ("fill", "write", "filter", "copy", "fillmask")
EXTENTS = ("opacity", "mode", "applymask", "dropmask", "visible", "delete", "offset", "restack")
BOTTOMS = ("visible", "delete", "restack")


def node_of(doc, number):
    return next((node for node in all_nodes(doc.nodes) if node.id == number), None)


def children_of(doc, stack):
    """The nodes of a stack, or none where it is not there."""
    node = None if stack == 0 else node_of(doc, stack)
    return doc.nodes if stack == 0 else None if node is None else node.children


def path_to(nodes, number):
    """The groups above a node, the outermost first, or none where it is not there."""
    for node in nodes:
        if node.id == number:
            return []
        inner = path_to(node.children or [], number)
        if inner is not None:
            return [node.id] + inner
    return None


def stacks_above(doc, stack):
    """The stacks above a stack, the innermost first; the image is above each group."""
    path = None if stack == 0 else path_to(doc.nodes, stack)
    return [] if path is None else [*reversed(path), 0]


def stack_of(doc, number):
    return next(iter(stacks_above(doc, number)), 0)


def rect_of(node, x, y, w, h):
    return node.x + x, node.y + y, node.x + x + w, node.y + y + h


def extent(doc, number):
    """The rectangle of a layer, or the least one round those of all layers of a group, or none."""
    node = node_of(doc, number)
    layers = [] if node is None else [each for each in all_nodes([node]) if each.children is None]
    rects = [rect_of(each, 0, 0, each.plane.width, each.plane.height) for each in layers]
    if not rects:
        return None
    lefts, tops, rights, bottoms = zip(*rects)
    return min(lefts), min(tops), max(rights), max(bottoms)


def bottom(doc, stack):
    """The bottommost visible node of a stack, or none."""
    return next((node.id for node in reversed(children_of(doc, stack) or []) if node.visible), None)


def bottom_pairs(old, new, stack):
    before, after = bottom(old, stack), bottom(new, stack)
    if before == after:
        return []
    return [(stack, extent(doc, number)) for doc, number in ((old, before), (new, after)) if number is not None]


def pairs(old, new, keyword, words, next_id):
    """The pairs of an edit that leads from one document to another, not yet cut, nor with those of the stacks above."""
    if keyword in RECTS:
        return [(stack_of(old, words[0]), rect_of(node_of(old, words[0]), *words[1:5]))]
    found = []
    if keyword in EXTENTS:
        found.append((stack_of(old, words[0]), extent(old, words[0])))
    if keyword in ("offset", "restack"):
        found.append((stack_of(new, words[0]), extent(new, words[0])))
    if keyword in BOTTOMS:
        found += bottom_pairs(old, new, stack_of(old, words[0]))
    if keyword == "restack":
        found += bottom_pairs(old, new, words[1])
    if keyword in ("newlayer", "newgroup"):
        found += [(words[0], extent(new, next_id)), *bottom_pairs(old, new, words[0])]
    if keyword == "colours":
        found += [(0, extent(old, node.id)) for node in all_nodes(old.nodes) if node.children is None]
    return found


def cut(doc, rect):
    """The part of a rectangle that is on the canvas, or none."""
    if rect is None:
        return None
    left, top, right, bottom_edge = max(rect[0], 0), max(rect[1], 0), min(rect[2], doc.width), min(rect[3], doc.height)
    return (left, top, right, bottom_edge) if left < right and top < bottom_edge else None


def damage(old, new, keyword, words, next_id):
    """The pairs of an edit. Each stands also for every stack above its own, before and after."""
    found = set()
    for stack, rect in pairs(old, new, keyword, words, next_id):
        rect = cut(old, rect)
        if rect is not None:
            found |= {(each, rect) for each in (stack, *stacks_above(old, stack), *stacks_above(new, stack))}
    return found


def meets(rect, column, row):
    """Whether a rectangle has a point of a tile."""
    left, top, right, bottom_edge = rect
    return left < 64 * column + 64 and 64 * column < right and top < 64 * row + 64 and 64 * row < bottom_edge
