// The files, or the ranks, as they stand side by side: each coordinate has a slot, and a long empty stretch is folded into one slot. A view says which
// slots are seen, and where on the screen.

// The most coordinates in a row that are shown although nothing stands on them or beside them.
const MOST_EMPTY = 2n;
const LEAST_SCALE = 10, MOST_SCALE = 110, FIT_SCALE = 52;
const compare = (one, two) => (one < two ? -1 : one > two ? 1 : 0);
const clamp = (it, least, most) => Math.min(Math.max(it, least), most);

export class Axis {
  constructor(kept, isFolded) {
    this.folds = [];
    if (!isFolded) return;
    const near = [...new Set(kept.flatMap((it) => [it - 1n, it, it + 1n]))].sort(compare);
    let cut = 0n;
    for (let at = 1; at < near.length; at += 1) {
      const low = near[at - 1] + 1n, high = near[at] - 1n;
      if (high - low + 1n > MOST_EMPTY) {
        this.folds.push({ low, high, slot: low - cut, cut });
        cut += high - low;
      }
    }
  }

  slotOf(at) {
    let cut = 0n;
    for (const it of this.folds) {
      if (at < it.low) break;
      if (at <= it.high) return it.slot;
      cut = it.cut + it.high - it.low;
    }
    return at - cut;
  }

  /** Returns what a slot has: a coordinate as `at`, or a `fold`. */
  in(slot) {
    let cut = 0n;
    for (const it of this.folds) {
      if (slot < it.slot) break;
      if (slot === it.slot) return { slot, fold: it };
      cut = it.cut + it.high - it.low;
    }
    return { slot, at: slot + cut };
  }
}

/** What is seen: the middle of the screen is `base` plus `offset`, in slots, and a slot has `scale` pixels. */
export class View {
  constructor() {
    this.base = [0n, 0n];
    this.offset = [0.5, 0.5];
    this.scale = 44;
    this.size = [600, 400];
  }

  left(slot) {
    return this.size[0] / 2 + (Number(slot - this.base[0]) - this.offset[0]) * this.scale;
  }

  top(slot) {
    return this.size[1] / 2 - (Number(slot - this.base[1]) + 1 - this.offset[1]) * this.scale;
  }

  slotAt(x, y) {
    const across = Math.floor((x - this.size[0] / 2) / this.scale + this.offset[0]);
    const up = Math.floor(this.offset[1] - (y - this.size[1] / 2) / this.scale);
    return [this.base[0] + BigInt(across), this.base[1] + BigInt(up)];
  }

  /** Returns the slots that are seen, from the left and from above. */
  slots(axes) {
    const [first, top] = this.slotAt(0, 0), [last, bottom] = this.slotAt(this.size[0], this.size[1]);
    const columns = [], rows = [];
    for (let at = first; at <= last; at += 1n) columns.push({ ...axes[0].in(at), px: this.left(at) });
    for (let at = top; at >= bottom; at -= 1n) rows.push({ ...axes[1].in(at), px: this.top(at) });
    return [columns, rows];
  }

  pan(x, y) {
    this.offset = [this.offset[0] - x / this.scale, this.offset[1] + y / this.scale];
    for (const it of [0, 1]) {
      const whole = Math.floor(this.offset[it]);
      this.base[it] += BigInt(whole);
      this.offset[it] -= whole;
    }
  }

  zoom(factor, x = this.size[0] / 2, y = this.size[1] / 2) {
    const scale = clamp(this.scale * factor, LEAST_SCALE, MOST_SCALE), by = 1 / this.scale - 1 / scale;
    this.offset[0] += (x - this.size[0] / 2) * by;
    this.offset[1] -= (y - this.size[1] / 2) * by;
    this.scale = scale;
    this.pan(0, 0);
  }

  centre(slots) {
    this.base = [...slots];
    this.offset = [0.5, 0.5];
  }

  /** Shows these slots, all of them where they have room, else the first. */
  fit(slots, inset) {
    if (!slots.length) return this.centre([0n, 0n]);
    const low = [0, 1].map((it) => slots.map((slot) => slot[it]).reduce((one, two) => (one < two ? one : two)));
    const high = [0, 1].map((it) => slots.map((slot) => slot[it]).reduce((one, two) => (one > two ? one : two)));
    const wide = [0, 1].map((it) => Number(high[it] - low[it]) + 3);
    const scale = Math.min((this.size[0] - inset[0]) / wide[0], (this.size[1] - inset[1]) / wide[1]);
    this.scale = clamp(scale, LEAST_SCALE, FIT_SCALE);
    if (scale < LEAST_SCALE) {
      this.scale = 44;
      return this.centre(slots[0]);
    }
    this.base = low;
    this.offset = [0, 1].map((it) => Number(high[it] - low[it]) / 2 + 0.5);
    this.pan(inset[0] / 2, -inset[1] / 2);
  }

  isSeen(slots, inset) {
    const x = this.left(slots[0]) + this.scale / 2, y = this.top(slots[1]) + this.scale / 2;
    return x >= inset[0] && x <= this.size[0] && y >= 0 && y <= this.size[1] - inset[1];
  }
}
