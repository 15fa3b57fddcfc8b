// The places of the cards. They follow from the graph alone, so the file holds none.

export const CARD = 124
const ACROSS = 34
const DOWN = 14
// The place of an input among the cards of its column, and of cards that depend on nothing.
const FIRST = -1
const LAST = 1e4

// Gives each box its `left` and `top`, and returns the sides of the whole. A box has the images that
// it writes (`cells`), the images that it reads (`ins`) and a height (`tall`).
export function place (boxes) {
  link(boxes)
  assignColumns(boxes)
  const columns = []
  boxes.forEach(box => (columns[box.column] ??= []).push(box))
  columns.forEach((column, at) => fillColumn(column ?? [], at, boxes))
  return {
    wide: Math.max(CARD, ...boxes.map(box => box.left + CARD)),
    tall: Math.max(60, ...boxes.map(box => box.top + box.tall))
  }
}

function link (boxes) {
  const writers = new Map()
  boxes.forEach(box => box.cells.forEach(name => writers.set(name, box)))
  for (const box of boxes) {
    box.before = box.ins.map(([, name]) => writers.get(name)).filter(other => other && other !== box)
  }
}

// The column of a box is the longest path to it. A wire that closes a cycle doesn't count.
function assignColumns (boxes) {
  const states = new Map()
  const visit = box => {
    if (states.has(box)) return
    states.set(box, 'open')
    box.before = box.before.filter(other => states.get(other) !== 'open')
    box.before.forEach(visit)
    box.column = Math.max(0, ...box.before.map(other => other.column + 1))
    states.set(box, 'done')
  }
  boxes.filter(box => !box.ins.length).forEach(visit)
  boxes.forEach(visit)
  // An image that no node writes stands next to its first reader.
  for (const box of boxes.filter(box => !box.ins.length)) {
    const readers = boxes.filter(other => other.before.includes(box)).map(other => other.column)
    if (readers.length) box.column = Math.max(0, Math.min(...readers) - 1)
  }
}

function fillColumn (column, at, boxes) {
  const wish = box => box.before.length ? box.before[0].top ?? 0 : box.isInput ? FIRST : LAST
  const depths = new Map()
  const depth = box => {
    if (!depths.has(box)) {
      const readers = boxes.filter(other => other.before.includes(box) && other.column > box.column)
      depths.set(box, 1 + Math.max(0, ...readers.map(depth)))
    }
    return depths.get(box)
  }
  column.sort((one, other) => wish(one) - wish(other) || depth(other) - depth(one))
  let bottom = 0
  for (const box of column) {
    const wanted = wish(box)
    box.left = at * (CARD + ACROSS)
    box.top = Math.max(bottom, wanted > 0 && wanted < LAST ? wanted : 0)
    bottom = box.top + box.tall + DOWN
  }
}
