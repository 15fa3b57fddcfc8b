// The properties of the objects that are a node's parameters: threshold, table, convolution and
// distribution.
import { row, ticks } from './controls.js'
import { el } from './dom.js'
import { plotTable } from './plots.js'
import { limitsOf, numberOf, rowsOf, textOf } from './values.js'

const KERNELS = {
  sharpen: [[[0, -1, 0], [-1, 8, -1], [0, -1, 0]], 4],
  laplace: [[[0, 1, 0], [1, -4, 1], [0, 1, 0]], 1],
  'mean 3×3': [[[1, 2, 1], [2, 4, 2], [1, 2, 1]], 16],
  'mean 5×5': [[1, 4, 6, 4, 1].map(down => [1, 4, 6, 4, 1].map(across => down * across)), 256],
  'edge ↔': [[[-1, 0, 1], [-2, 0, 2], [-1, 0, 1]], 1],
  'edge ↕': [[[-1, -2, -1], [0, 0, 0], [1, 2, 1]], 1]
}
const BINS = { bins: 16, offset: 0, range: 256 }
const SCALES = Array.from({ length: 16 }, (_, k) => String(2 ** k))

export class Parameters {
  constructor (studio, controls) {
    Object.assign(this, { studio, controls, curve: null, limits: null })
  }

  // The rows of an object that a node has as a parameter.
  rows (p, node) {
    const object = this.studio.model.objectOf(node, p)
    if (!object) return []
    const makers = {
      threshold: () => this.threshold(node, object), lut: () => this.table(object),
      convolution: () => this.kernel(object), distribution: () => this.distribution(object)
    }
    return makers[p]?.() ?? []
  }

  range (name) { return this.studio.about.ranges[name] }

  // ---- threshold

  threshold (node, limit) {
    const { controls, studio: { model } } = this
    const [input, own] = ['input', 'threshold'].map(p => model.operand(node, p))
    const range = this.rangeOf(limit, input)
    const users = model.nodes.filter(other => model.operand(other, 'threshold') === own).length
    const plot = el('canvas', { className: 'plot limits', ariaLabel: 'Histogram of the input with the limits' })
    plot.setAttribute('role', 'img')
    const note = el('p', { hidden: true })
    const [ends, limitRows] = [ticks(range), this.limitRows(limit, range)]
    const sliders = limitRows.map(one => one.querySelector('input[type=range]'))
    this.limits = { plot, note, ends, sliders, name: input, limit, range }
    this.dragLimits(plot, limit)
    const rows = [
      row('passes', controls.segments('passes', ['above', 'between'], Array.isArray(limit.between) ? 'between' : 'above', value => setKind(limit, value, range))),
      plot, ends, note, ...limitRows,
      row('format', controls.menu('p-format', ['U8', 'S16'], limit.format, value => { limit.format = value })),
      row('writes', this.outputs(limit))]
    if (users > 1) rows.push(el('p', { textContent: `“${own}” is the threshold of ${users} nodes.` }))
    return rows
  }

  limitRows (limit, range) {
    const hard = this.range(`threshold.${textOf(limit.format)}`) ?? range
    const slider = (id, value, set) => this.controls.slider(id, range, value, set, hard)
    if (!Array.isArray(limit.between)) return [row('above', slider('p-limit', limit.above, now => setLimit(limit, 0, now)))]
    return limit.between.map((value, k) => row(k ? 'to' : 'from', slider(`p-limit${k}`, value, now => { limit.between[k] = now })))
  }

  outputs (limit) {
    const field = (name, id, otherwise, title) => this.controls.number(
      id, limit[name] ?? otherwise, value => { limit[name] = value }, this.range(`threshold.${name}`), title)
    return el('div', { className: 'pair halves' },
      field('true_value', 'p-true', 255, 'Where a sample passes'), field('false_value', 'p-false', 0, 'Elsewhere'))
  }

  // The range of a threshold's histogram and sliders.
  rangeOf ({ format }, input) { return format === 'S16' ? this.usedRange(input) : this.range('threshold.U8') }

  // Gives the axis and the sliders the range that the input's samples use now.
  refreshRange () {
    const { limits } = this
    const range = this.rangeOf(limits.limit, limits.name)
    limits.range = range
    range.forEach((value, k) => { limits.ends.children[k].textContent = value })
    // A slider whose range changes also changes its value.
    limits.sliders.forEach((slider, k) => Object.assign(slider, { min: range[0], max: range[1], value: limitsOf(limits.limit)[k] }))
  }

  // The range that an image's samples use.
  usedRange (name) {
    const full = this.studio.result.fulls.get(name)
    if (!full) return [-1024, 1024]
    const [low, high] = full.range
    return [Math.max(-32768, low - 1), Math.max(high, low + 1)]
  }

  // The limits can be dragged in the histogram.
  dragLimits (plot, limit) {
    const value = event => {
      const { left, width } = plot.getBoundingClientRect()
      const [low, high] = this.limits.range
      return Math.round(Math.max(low, Math.min(high, low + (high - low) * (event.clientX - left) / width)))
    }
    plot.addEventListener('pointerdown', event => {
      plot.setPointerCapture(event.pointerId)
      const [lower, upper] = limitsOf(limit)
      const nearest = Math.abs(value(event) - upper) < Math.abs(value(event) - lower) ? 1 : 0
      const set = move => this.studio.edit(() => setLimit(limit, nearest, value(move)), 'histogram', move.timeStamp)
      set(event)
      plot.onpointermove = set
      plot.onpointerup = plot.onpointercancel = () => {
        plot.onpointermove = null
        this.studio.model.endGesture()
        this.studio.panel.draw()
      }
    })
  }

  // ---- table, convolution and distribution

  table (object) {
    if (!Array.isArray(object.entries) || object.format === 'S16') {
      return [el('p', { textContent: 'This table is kept as it is in the file.' })]
    }
    if (this.curve?.object !== object) this.curve = { object, gain: 1, offset: 0, gamma: 1 }
    const { curve } = this
    const plot = el('canvas', { className: 'plot', ariaLabel: 'The table as a curve' })
    plot.setAttribute('role', 'img')
    requestAnimationFrame(() => plotTable(plot, object.entries))
    const slide = (field, range, step) => row(field, this.controls.slider(`p-${field}`, range, curve[field], value => {
      curve[field] = value
      object.entries = Array.from({ length: 256 }, (_, k) => entryOf(curve, k))
      plotTable(plot, object.entries)
    }, range, step))
    return [plot, slide('gain', [-8, 8], 0.1), slide('offset', [-255, 255], 1), slide('gamma', [0.2, 5], 0.1)]
  }

  kernel (object) {
    const { controls } = this
    const rows = rowsOf(object)
    if (!rows.length) return []
    const grid = el('div', { className: 'kernel' })
    grid.style.gridTemplateColumns = `repeat(${rows[0].length}, 1fr)`
    rows.forEach((cells, y) => cells.forEach((value, x) => grid.append(controls.number(
      `p-k${y}-${x}`, value, now => { object.rows[y][x] = now }, this.range('convolution.coefficient'), `row ${y}, column ${x}`))))
    const preset = controls.menu('p-preset', ['', ...Object.keys(KERNELS)], '', name => {
      if (name) [object.rows, object.scale] = structuredClone(KERNELS[name])
    })
    const sides = controls.menu('p-sides', this.studio.about.sides.map(String), String(rows.length), value => { object.rows = resized(object.rows, +value) })
    const scale = controls.menu('p-scale', SCALES, object.scale ?? 1, value => { object.scale = +value })
    return [row('preset', preset), row('side', sides), grid, row('divided by', scale)]
  }

  distribution (object) {
    return Object.entries(BINS).map(([field, otherwise]) => row(field, this.controls.slider(
      `p-${field}`, this.range(`distribution.${field}`), object[field] ?? otherwise, value => { object[field] = value })))
  }
}

function setKind (limit, kind, [least, most]) {
  const lower = numberOf(limitsOf(limit)[0], least)
  const isBetween = Array.isArray(limit.between)
  if (kind === 'between' && !isBetween) {
    limit.between = [lower, Math.max(lower, most)]
    delete limit.above
  } else if (kind === 'above' && isBetween) {
    limit.above = lower
    delete limit.between
  }
}

// Sets the only limit, or the lower (0) or the upper one (1), which stay in order.
export function setLimit (limit, which, value) {
  const [lower, upper] = limitsOf(limit)
  if (Array.isArray(limit.between)) {
    limit.between[which] = which ? Math.max(numberOf(lower, value), value) : Math.min(numberOf(upper, value), value)
    return
  }
  limit.above = value
  // If it is there, it is no list, which would stay a fault.
  delete limit.between
}

function entryOf ({ gain, offset, gamma }, k) {
  const linear = Math.max(0, Math.min(1, (k * gain + offset) / 255))
  return Math.round(255 * linear ** (1 / gamma))
}

// A kernel with other sides, around the same middle.
function resized (rows, side) {
  const shift = (side - rows.length) / 2
  return Array.from({ length: side }, (_, y) => Array.from({ length: side }, (_, x) => rows[y - shift]?.[x - shift] ?? 0))
}
