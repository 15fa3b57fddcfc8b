// The graph as cards and wires, which can be moved and zoomed, and wires that are drawn by hand.
import { Card, setThumbHeight, thumbHeightFor } from './cards.js'
import { byId, el, followPointer, svg } from './dom.js'
import { CARD, place } from './layout.js'

const MARGIN = 10
const LEAST_FIT = 0.6
const [LEAST_SCALE, GREATEST_SCALE] = [0.25, 2.5]

export class GraphView {
  constructor (studio) {
    this.studio = studio
    for (const id of ['graph', 'world', 'cards', 'wires', 'problems']) this[id] = byId(id)
    Object.assign(this, { scale: 1, x: 0, y: 0, isFitted: true, views: [], sides: { wide: CARD, tall: 60 } })
    this.listen()
    new ResizeObserver(() => this.isFitted && this.refit()).observe(this.graph)
  }

  boxes () {
    const { model } = this.studio
    const nodes = model.nodes.map((node, at) => ({
      at, node, cells: model.outs(node).map(([, name]) => name), ins: model.imageParameters(node).map(p => [p, model.operand(node, p)])
    }))
    const unwritten = model.images().filter(name => model.writerOf(name) < 0 && this.isWorthShowing(name))
    return [...nodes, ...unwritten.map(name => ({ at: -1, cells: [name], ins: [], isInput: !!model.object(name).input }))]
  }

  // Of a delay, the newest image that isn't of this run, and the slots that nodes read.
  isWorthShowing (name) {
    const { model } = this.studio
    return model.base(name) === name || name.endsWith('[-1]') || model.readersOf(name).length > 0
  }

  // Draws everything anew: the graph, its faults or the choice have changed.
  draw () {
    const focused = document.activeElement?.dataset?.cell
    const { model, result } = this.studio
    const boxes = this.boxes()
    this.thumbHeight = thumbHeightFor(result.shown[model.input()])
    setThumbHeight(this.thumbHeight)
    boxes.forEach(box => { box.tall = Card.height(Math.max(1, box.cells.length), this.thumbHeight) })
    this.sides = place(boxes)
    this.views = boxes.map(box => new Card(this.studio, box, this.thumbHeight))
    this.cards.replaceChildren(...this.views.map(card => card.root))
    this.drawWires(boxes)
    this.drawProblems()
    if (this.isFitted) this.refit()
    if (this.revealed !== this.studio.chosen) this.reveal(this.studio.chosen)
    if (focused !== undefined) this.cellOf(focused)?.focus({ preventScroll: true })
    this.repaint()
  }

  repaint () { this.views.forEach(card => card.repaint()) }
  refreshSettings () { this.views.forEach(card => card.refreshAbout()) }
  showSamples (samples) { this.views.forEach(card => card.showSamples(samples)) }

  // The element of an image or a slot.
  cellOf (name) { return this.views.find(card => card.cells.has(name))?.cells.get(name).root }

  drawWires (boxes) {
    const { chosen, result } = this.studio
    const starts = new Map()
    boxes.forEach(box => box.cells.forEach((name, k) => (
      starts.set(name, [box.left + CARD, box.top + Card.outputY(k, this.thumbHeight)]))))
    const wires = boxes.flatMap(box => box.ins.map(([, name], k) => {
      if (!starts.has(name)) return null
      const end = [box.left, box.top + Card.inputY(box, k, this.thumbHeight)]
      const path = svg('path', { d: curve(starts.get(name), end) })
      path.classList.toggle('near', name === chosen || box.cells.includes(chosen))
      path.classList.toggle('fault', result.faultsOfNode(box.at).length > 0)
      return path
    }))
    this.wires.replaceChildren(...wires.filter(Boolean))
  }

  // The list of faults. Nodes and objects with the same fault, such as the nodes of a cycle, share a
  // line.
  drawProblems () {
    const { studio } = this
    const lines = new Map()
    for (const fault of studio.result.faults) {
      const words = `${fault.code} ${fault.words}`.trim()
      if (!lines.has(words)) lines.set(words, [])
      lines.get(words).push(fault)
    }
    this.problems.replaceChildren(...[...lines].map(([words, faults]) => {
      const [{ object, node }] = faults
      const nodes = faults.map(fault => fault.node).filter(Boolean)
      const numbers = nodes.length ? [`Node${nodes.length > 1 ? 's' : ''} ${nodes.join(', ')}`] : []
      const where = [...faults.map(fault => fault.object).filter(Boolean), ...numbers].join(', ') || 'Graph'
      const line = `${where}: ${words}`
      const onclick = () => object ? studio.choose(studio.model.images().find(name => studio.model.base(name) === object) ?? object) : node && studio.chooseNode(node - 1)
      return el('button', { textContent: line, title: line, onclick })
    }))
  }

  // ---- moving

  fit () {
    Object.assign(this, { x: MARGIN, y: MARGIN, isFitted: true })
    this.refit()
  }

  // Shows the graph as large as it fits. Of one that is too large, the same part stays in view.
  refit () {
    const { wide, tall } = this.sides
    const across = this.graph.clientWidth - MARGIN
    const down = this.graph.clientHeight - MARGIN - this.problems.clientHeight
    const scale = Math.max(LEAST_FIT, Math.min(1, (across - MARGIN) / wide, (down - MARGIN) / tall))
    const inside = (from, room, size) => Math.min(MARGIN, Math.max(from, room - size * scale))
    Object.assign(this, { scale, x: inside(this.x, across, wide), y: inside(this.y, down, tall) })
    this.move()
  }

  move () { this.world.style.transform = `translate(${this.x}px, ${this.y}px) scale(${this.scale})` }

  // Moves the graph so that an image is seen.
  reveal (name) {
    const inside = this.cellOf(name)?.getBoundingClientRect()
    const around = this.graph.getBoundingClientRect()
    this.revealed = name
    if (!inside) return
    const bottom = around.bottom - this.problems.clientHeight
    const dx = Math.max(0, around.left - inside.left + MARGIN) - Math.max(0, inside.right - around.right + MARGIN)
    const dy = Math.max(0, around.top - inside.top + MARGIN) - Math.max(0, inside.bottom - bottom + MARGIN)
    if (!dx && !dy) return
    this.x += dx
    this.y += dy
    this.move()
  }

  // The nearest image in a direction.
  neighbour (name, dx, dy) {
    const names = this.views.flatMap(card => [...card.cells.keys()])
    const here = this.cellOf(name)?.getBoundingClientRect()
    if (!here) return names[0]
    const distance = other => {
      const there = this.cellOf(other).getBoundingClientRect()
      const along = (there.x - here.x) * dx + (there.y - here.y) * dy
      const across = Math.abs((there.x - here.x) * dy) + Math.abs((there.y - here.y) * dx)
      return along > 8 ? along + 2 * across : Infinity
    }
    const nearest = names.filter(other => other !== name).sort((one, other) => distance(one) - distance(other))[0]
    return nearest !== undefined && distance(nearest) < Infinity ? nearest : name
  }

  listen () {
    this.graph.addEventListener('wheel', event => this.zoom(event), { passive: false })
    this.graph.addEventListener('dblclick', event => { if (event.target === this.graph) this.fit() })
    this.graph.addEventListener('pointerdown', event => {
      if (event.button > 1) return
      const from = event.target.dataset?.from
      if (from !== undefined) this.dragWire(event, from)
      else if (event.target.closest('.card, #problems') === null) this.pan(event)
    })
  }

  zoom (event) {
    event.preventDefault()
    const around = this.graph.getBoundingClientRect()
    const wish = this.scale * Math.exp(-event.deltaY * (event.deltaMode ? 0.05 : 0.0015))
    const scale = Math.max(LEAST_SCALE, Math.min(GREATEST_SCALE, wish))
    const factor = scale / this.scale
    this.x = (event.clientX - around.left) * (1 - factor) + this.x * factor
    this.y = (event.clientY - around.top) * (1 - factor) + this.y * factor
    Object.assign(this, { scale, isFitted: false })
    this.move()
  }

  pan (event) {
    const { x, y } = this
    this.graph.classList.add('moving')
    followPointer(move => {
      Object.assign(this, { x: x + move.clientX - event.clientX, y: y + move.clientY - event.clientY, isFitted: false })
      this.move()
    }, () => this.graph.classList.remove('moving'))
  }

  dragWire (event, from) {
    event.preventDefault()
    const path = svg('path', { class: 'new' })
    this.wires.append(path)
    const start = this.pointIn(event)
    let over = null
    followPointer(move => {
      path.setAttribute('d', curve(start, this.pointIn(move)))
      const port = portAt(move)
      if (port === over) return
      over?.classList.remove('near')
      port?.classList.add('near')
      over = port
    }, () => {
      path.remove()
      if (over) this.studio.connect(from, +over.dataset.node, over.dataset.parameter)
    })
  }

  pointIn ({ clientX, clientY }) {
    const around = this.graph.getBoundingClientRect()
    return [(clientX - around.left - this.x) / this.scale, (clientY - around.top - this.y) / this.scale]
  }
}

// The input at the pointer; on a card, its first input that isn't connected.
function portAt ({ clientX, clientY }) {
  const under = document.elementFromPoint(clientX, clientY)
  return under?.closest('.port[data-node]') ?? under?.closest('.card')?.querySelector('.port[data-node].open') ?? null
}

function curve ([x0, y0], [x1, y1]) {
  const bend = x1 > x0 ? Math.max(16, (x1 - x0) / 2) : 70
  return `M ${x0} ${y0} C ${x0 + bend} ${y0}, ${x1 - bend} ${y1}, ${x1} ${y1}`
}
