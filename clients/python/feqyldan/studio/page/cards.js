// The cards of the graph: a node with the images that it writes, or an image that no node writes.
import { byId, cleared, el, grey, resize, setText } from './dom.js'
import { rowsOf, textOf } from './values.js'

export const HEAD = 36
const PICTURE = 116
const CAPTION = 22
const VALID = '#e0a030'

export class Card {
  constructor (studio, box, thumbHeight) {
    Object.assign(this, { studio, box, thumbHeight })
    const { result, model } = studio
    this.faults = box.at >= 0 ? result.faultsOfNode(box.at) : result.faultsOfObject(model.base(box.cells[0]))
    this.waits = result.waiting[box.at + 1]
    this.cells = new Map()
    this.root = this.build()
  }

  // The height of a card with this many images.
  static height (cells, thumbHeight) { return HEAD + cells * (thumbHeight + CAPTION) }

  // Where the wires of an input and of an output end.
  static inputY (box, k, thumbHeight) { return HEAD + thumbHeight * (box.ins.length === 1 ? 0.5 : 0.28 + 0.44 * k) }
  static outputY (k, thumbHeight) { return HEAD + thumbHeight / 2 + k * (thumbHeight + CAPTION) }

  build () {
    const { box, faults, waits } = this
    const root = el('div', { className: 'card', ariaLabel: this.words() })
    root.setAttribute('role', 'group')
    root.classList.toggle('fault', faults.length > 0)
    root.classList.toggle('waiting', !!waits)
    Object.assign(root.style, { left: `${box.left}px`, top: `${box.top}px` })
    this.about = el('div', { className: 'about' })
    root.append(
      el('header', {}, faults.length ? '⚠ ' : '', this.title(), el('span', { className: 'number', textContent: box.at >= 0 ? box.at + 1 : '' })),
      this.about, ...box.cells.map(name => this.cell(name)))
    if (!box.cells.length) root.append(this.emptyCell())
    root.append(...this.ports())
    this.refreshAbout()
    return root
  }

  title () { return this.box.at >= 0 ? textOf(this.box.node.function).replace(/_$/, '') : this.kind() }

  // What the wires and the card say, in words.
  words () {
    const { box } = this
    if (box.at < 0) return `${this.kind()} ${box.cells[0]}`
    const reads = box.ins.map(([p, name]) => `${p} ${name ?? 'not connected'}`).join(', ')
    const writes = box.cells.length ? `; writes ${box.cells.join(' and ')}` : ''
    return `Node ${box.at + 1}, ${this.title()}: ${reads}${writes}`
  }

  kind () {
    const told = this.studio.model.object(this.box.cells[0])
    if (told?.input) return 'input'
    if (told?.kind === 'delay') return 'delay'
    if (told?.kind === 'virtual image') return 'unwritten'
    return told?.file ? 'picture' : 'image'
  }

  cell (name) {
    const { studio, faults, waits, box } = this
    const told = studio.model.object(name)
    const one = faults.length || waits ? null : studio.result.shown[name]
    const root = el('div', { className: 'cell', tabIndex: 0 })
    const of = box.at >= 0 ? `, written by node ${box.at + 1}` : ''
    const state = faults.length ? `, fault: ${faults[0].words}` : waits ? `, waits for ${waits}` : ''
    root.dataset.cell = name
    root.setAttribute('role', 'button')
    root.setAttribute('aria-pressed', studio.chosen === name)
    root.setAttribute('aria-label', `${name}${of}${state}`)
    root.classList.toggle('virtual', told?.kind === 'virtual image')
    root.classList.toggle('result', box.at >= 0 && told?.kind === 'image')
    root.classList.toggle('input', !!told?.input)
    root.classList.toggle('chosen', studio.chosen === name)
    const view = one ? el(one.kind === 'extremes' ? 'span' : 'canvas') : this.explanation()
    if (one?.kind === 'extremes') view.className = 'words numbers figures'
    const value = el('span', { className: 'value figures' })
    root.append(view, el('span', { className: 'name' }, el('b', { textContent: name, title: name }), value))
    root.onclick = () => studio.choose(name)
    this.cells.set(name, { root, view: one ? view : null, value })
    return root
  }

  // A node none of whose outputs has a name can be chosen too.
  emptyCell () {
    const root = el('div', { className: 'cell', tabIndex: 0, ariaLabel: this.words() }, this.explanation())
    root.setAttribute('role', 'button')
    root.dataset.node = this.box.at
    root.classList.toggle('chosen', this.studio.chosenNode === this.box.at)
    root.onclick = () => this.studio.chooseNode(this.box.at)
    return root
  }

  explanation () {
    const [fault] = this.faults
    const words = fault ? `${fault.code} ${fault.words}`.trim() : this.waits ? `waits for ${this.waits}` : ''
    return el('span', { className: 'words', textContent: words, title: words })
  }

  // Wires are drawn from port to port. The inputs' menus do the same by keyboard.
  ports () {
    const { box, thumbHeight } = this
    const port = (title, left, top, data) => {
      const made = el('span', { className: 'port', title })
      Object.assign(made.style, { left, top: `${top}px` })
      Object.assign(made.dataset, data)
      return made
    }
    const inputs = box.ins.map(([p, name], k) => {
      const made = port(`${p}: ${name ?? 'not connected'}`, '0', Card.inputY(box, k, thumbHeight), { node: box.at, parameter: p })
      made.classList.toggle('open', name === null)
      return made
    })
    const outputs = box.cells.filter(name => this.studio.model.isImage(name)).map((name, k) =>
      port(`Drag to an input to connect ${name}`, '100%', Card.outputY(k, thumbHeight), { from: name }))
    return [...inputs, ...outputs]
  }

  refreshAbout () {
    const { studio, box } = this
    setText(this.about, box.at >= 0 ? settings(studio.model, studio.model.nodes[box.at]) : this.source())
  }

  source () {
    const told = this.studio.model.object(this.box.cells[0])
    if (told?.input) return this.studio.pictureName
    if (told?.file) return textOf(told.file)
    return told?.samples ? 'samples in the file' : told?.kind === 'delay' ? `${textOf(told.slots)} slots` : '0 at first'
  }

  // Paints what a run has changed.
  repaint () {
    const { shown, thumbs } = this.studio.result
    for (const [name, { view, value, root }] of this.cells) {
      const one = shown[name]
      if (!view || !one) continue
      if (one.kind === 'image' && thumbs[name]) paintThumb(view, thumbs[name], one)
      else if (one.kind === 'distribution') paintBars(view, one.counts)
      else if (one.kind === 'extremes') paintExtremes(view, one)
      setText(value, this.caption(name))
      value.style.color = ''
      root.title = one.kind === 'image' ? `${one.fmt}, ${one.width} by ${one.height}, valid ${one.valid.join(', ')}` : ''
    }
  }

  caption (name) {
    const { shown, thumbs } = this.studio.result
    if (shown[name]?.kind !== 'image') return ''
    return thumbs[name]?.times > 1 ? `${shown[name].fmt} ×${thumbs[name].times}` : shown[name].fmt
  }

  // Shows the sample of each image at the pointer, or its format.
  showSamples (samples) {
    for (const [name, { value }] of this.cells) {
      setText(value, String(samples?.[name] ?? this.caption(name)))
      value.style.color = samples ? 'var(--accent)' : ''
    }
  }
}

// The parameters of a node in a few words.
export function settings (model, node) {
  const limit = model.objectOf(node, 'threshold')
  const kernel = model.objectOf(node, 'convolution')
  const bins = model.objectOf(node, 'distribution')
  const rows = kernel ? rowsOf(kernel) : []
  return [
    limit && (Array.isArray(limit.between) ? limit.between.map(textOf).join(' … ') : `> ${textOf(limit.above)}`),
    rows.length && `${rows[0].length}×${rows.length} / ${textOf(kernel.scale ?? 1)}`,
    bins && `${textOf(bins.bins)} bins`,
    textOf(node.policy ?? '').toLowerCase(),
    node.shift ? `/ 2^${textOf(node.shift)}` : '',
    typeof node.border === 'number' ? `border ${node.border}` : textOf(node.border ?? '').toLowerCase()
  ].filter(Boolean).join(' · ')
}

// Paints the bytes of a thumbnail, and the valid rectangle unless that is the whole image.
export function paintThumb (canvas, { width, height, bytes }, one) {
  resize(canvas, width, height)
  const context = canvas.getContext('2d')
  const data = new ImageData(width, height)
  const pixels = new Uint32Array(data.data.buffer)
  for (let k = 0; k < bytes.length; k++) pixels[k] = grey(bytes[k])
  context.putImageData(data, 0, 0)
  const [x0, y0, x1, y1] = one?.valid ?? []
  if (!one || (!x0 && !y0 && x1 === one.width && y1 === one.height)) return
  const across = width / one.width
  const down = height / one.height
  context.strokeStyle = VALID
  context.strokeRect(Math.floor(x0 * across) + 0.5, Math.floor(y0 * down) + 0.5, Math.ceil((x1 - x0) * across) - 1, Math.ceil((y1 - y0) * down) - 1)
}

function paintBars (canvas, counts) {
  const [context, wide, tall] = cleared(canvas)
  const most = Math.log1p(Math.max(1, ...counts))
  const each = wide / counts.length
  context.fillStyle = getComputedStyle(canvas).getPropertyValue('--bar')
  counts.forEach((count, k) => {
    const high = tall * Math.log1p(count) / most
    context.fillRect(k * each, tall - high, Math.max(0.7, each - 0.4), high)
  })
}

function paintExtremes (root, one) {
  root.replaceChildren(...['max', 'min'].flatMap(what => [
    el('span', { textContent: what }), el('b', { textContent: one[what] }), el('span', { textContent: one[`${what}_at`].join(',') }),
    el('span'), el('span', { textContent: `in ${one[`${what}_count`].toLocaleString('en')}` })]))
}

export const thumbHeightFor = shape => shape ? Math.min(PICTURE, Math.max(30, Math.round(PICTURE * shape.height / shape.width))) : 65
export const setThumbHeight = height => byId('cards').style.setProperty('--thumb', `${height}px`)
