// The blocks of a tree, read from its records. Only the drawing uses them: every answer is the library's.

class Blocks {
    constructor(tree) {
        this.tree = tree;
        this.size = 16 + 12 * tree.counted.length + (tree.layout === 2 ? 2 * tree.leaf : 0);
        this.offsets = tree.blocks.map((_, level) => tree.library.word(tree.at + 32 + 8 * level));
    }

    /** The length of a full block of a level. */
    fullLength(level) {
        return this.tree.leaf * this.tree.arity ** (this.tree.levels - 1 - level);
    }

    block(level, number, view = this.tree.library.view()) {
        const at = this.tree.at + this.offsets[level] + this.size * number;
        const [start, kind, link, gap] = [0, 4, 8, 12].map((field) => view.getUint32(at + field, true));
        const length = Math.min(this.fullLength(level), this.tree.textLength - start);
        return { level, number, start, length, points: kind === 1, link, gap };
    }

    /** The path of a place by docs/FORMAT.md: the blocks entered, each with the place in it. */
    path(place) {
        const path = [];
        let [level, number, inside] = [0, Math.floor(place / this.fullLength(0)), place % this.fullLength(0)];
        while (path.length < 2 * this.tree.levels) {
            const block = this.block(level, number);
            path.push({ ...block, inside });
            if (block.points) {
                const reached = block.gap + inside;
                const second = reached >= this.fullLength(level);
                [number, inside] = second ? [block.link + 1, reached - this.fullLength(level)] : [block.link, reached];
            } else if (level === this.tree.levels - 1) {
                break;
            } else {
                level += 1;
                [number, inside] = [block.link + Math.floor(inside / this.fullLength(level)), inside % this.fullLength(level)];
            }
        }
        return path;
    }
}
