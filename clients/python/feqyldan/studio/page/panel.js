// The properties of what is chosen: the node's parameters, the image, and its histogram.
import { call } from './api.js'
import { Controls, faultBox, row, section, setFacts, ticks } from './controls.js'
import { byId, el } from './dom.js'
import { Parameters } from './parameters.js'
import { plotCounts, plotHistogram } from './plots.js'
import { LateCall } from './runs.js'
import { textOf } from './values.js'

const BORDERS = ['UNDEFINED', 'REPLICATE', 'constant']
const TITLES = { image: 'Image', 'virtual image': 'Virtual image', delay: 'Image of the delay', distribution: 'Distribution', extremes: 'Extremes' }

export class Panel {
  constructor (studio) {
    this.studio = studio
    this.root = byId('panel')
    this.controls = new Controls(studio)
    this.parameters = new Parameters(studio, this.controls)
    this.late = new LateCall(studio)
    new ResizeObserver(() => this.refresh()).observe(this.root)
  }

  // Builds the properties of what is chosen.
  draw () {
    const { model, chosen, chosenNode } = this.studio
    const focused = document.activeElement?.id
    Object.assign(this, { plot: null, facts: null, counts: null })
    this.parameters.limits = null
    const parts = []
    if (chosenNode >= 0) parts.push(this.node(chosenNode))
    else if (chosen && model.isImage(chosen)) parts.push(this.source(chosen))
    if (chosen && model.object(chosen)) parts.push(this.object(chosen, chosenNode))
    if (!parts.length) parts.push(section('', el('p', { textContent: 'Choose an image, then a function from the palette. It reads that image.' })))
    this.root.replaceChildren(...parts)
    if (focused) byId(focused)?.focus({ preventScroll: true })
    this.refresh()
  }

  // ---- a node

  node (at) {
    const { studio } = this
    const node = studio.model.nodes[at]
    const told = studio.model.functionOf(node)
    const remove = removeButton('Remove the node (Delete)', () => studio.remove(at))
    const part = section('',
      el('h2', {}, `${at + 1}  ${textOf(node.function).replace(/_$/, '')}`, el('span', { className: 'spring' }), remove),
      el('p', { textContent: told?.words ?? '' }), ...studio.result.faultsOfNode(at).map(faultBox))
    const waits = studio.result.waiting[at + 1]
    if (waits) part.append(el('p', { textContent: `Doesn't run: it waits for ${waits}.` }))
    for (const p of told?.parameters ?? []) part.append(...this.parameter(at, node, p))
    return part
  }

  parameter (at, node, p) {
    const { controls, studio } = this
    if (['input', 'in1', 'in2'].includes(p)) return [this.inputRow(at, node, p)]
    if (p === 'policy') return [row(p, controls.segments(p, ['WRAP', 'SATURATE'], node[p], value => { node[p] = value }))]
    if (p === 'shift') return [row(p, controls.slider('p-shift', studio.about.ranges[`${node.function}.shift`], node[p], value => { node[p] = value }))]
    if (p === 'border') return this.border(node)
    return this.parameters.rows(p, node)
  }

  inputRow (at, node, p) {
    const { model } = this.studio
    const below = model.below(at)
    const now = model.operand(node, p)
    const names = model.images().filter(name => !below.has(name) || name === now)
    return row(p, this.controls.menu(`p-${p}`, ['', ...names], now ?? '', name => {
      if (name) node[p] = name
      else delete node[p]
    }))
  }

  border (node) {
    const kind = typeof node.border === 'number' ? 'constant' : node.border ?? 'UNDEFINED'
    const rows = [row('border', this.controls.menu('p-border', BORDERS, kind, value => { node.border = value === 'constant' ? 0 : value }))]
    if (kind === 'constant') rows.push(row('value', this.controls.slider('p-value', this.studio.about.ranges.border, node.border, value => { node.border = value })))
    return rows
  }

  // ---- an image that no node writes

  source (name) {
    const { studio, controls } = this
    const told = studio.model.object(name)
    const base = studio.model.base(name)
    const remove = removeButton('Remove it (Delete)', () => studio.removeObject(base))
    const title = told.input ? 'Input' : told.kind === 'delay' ? 'Delay' : told.file ? 'Picture' : 'Image'
    const part = section('', el('h2', {}, title, el('span', { className: 'spring' }), remove), ...studio.result.faultsOfObject(base).map(faultBox))
    if (told.kind === 'delay') {
      part.append(
        row('slots', controls.slider('p-slots', studio.about.ranges['delay.slots'], told.slots, value => { told.slots = value })),
        row('ages', controls.check('p-ages', !!told.ages, ['after each run'], value => { told.ages = value })))
    } else if (told.kind === 'image') part.append(this.contentRow(name, told))
    if (told.input) part.append(el('p', { textContent: 'Gets each picture before a run.' }))
    return part
  }

  contentRow (name, told) {
    const { studio } = this
    const ofFile = told.samples ? ['samples in the file'] : told.fill ? [`${textOf(told.fill)} everywhere`] : []
    const now = told.input ? 'input' : told.file ?? ofFile[0] ?? 'zeros'
    return row('content', this.controls.menu('p-content', ['input', 'zeros', ...studio.about.files, ...ofFile], now, value => {
      if (value === ofFile[0]) return
      const { fmt = told.format, width = told.width, height = told.height } = studio.result.shown[name] ?? {}
      for (const field of Object.keys(told)) delete told[field]
      if (value === 'input') Object.values(studio.model.objects).forEach(other => delete other.input)
      const sized = { kind: 'image', format: fmt, width, height }
      Object.assign(told, value === 'input' ? { ...sized, input: true } : value === 'zeros' ? sized : { kind: 'image', file: value })
    }))
  }

  // ---- an object

  object (name, at) {
    const { studio } = this
    const base = studio.model.base(name)
    const told = studio.model.objects[base]
    const one = studio.result.shown[name]
    const field = el('input', { type: 'text', id: 'p-name', value: base, spellcheck: false })
    field.onchange = () => {
      const wish = field.value.trim()
      if (wish === base || studio.rename(base, wish)) return
      field.value = base
      studio.say(`“${wish}” isn't possible as a name: another object has it, or it is empty or too long, has a “/” or ends as a slot does.`, true)
    }
    const kind = textOf(told.kind ?? '')
    const part = section(TITLES[kind] ?? kind, row('name', field))
    if (at >= 0 && ['image', 'virtual image'].includes(kind) && one?.kind === 'image' && !studio.model.isSum(at)) part.append(...this.resultRows(base, told, one, at))
    if (one) part.append(...this.views(told, one))
    return part
  }

  resultRows (name, told, one, at) {
    const { studio, controls } = this
    const words = [el('code', { textContent: 'run' }), ' writes it (R)']
    const rows = [row('result', controls.check('p-result', told.kind === 'image', words, value => studio.model.setResult(name, value, one)))]
    const outputs = studio.model.functionOf(studio.model.nodes[at]).taken.map(([, , output]) => output)
    const fmts = ['U8', 'S16'].filter(fmt => outputs.includes(fmt))
    if (fmts.length < 2) return rows
    const choices = told.kind === 'image' ? fmts : ['open', ...fmts]
    return [...rows, row('format', controls.menu('p-out', choices, told.format ?? 'open', value => {
      if (value === 'open') delete told.format
      else told.format = value
    }))]
  }

  // The histogram and the facts, which refresh() fills.
  views (told, one) {
    const canvas = words => {
      const made = el('canvas', { className: 'plot', ariaLabel: words })
      made.setAttribute('role', 'img')
      return made
    }
    this.facts = el('dl')
    if (one.kind === 'extremes') return [this.facts]
    if (one.kind === 'distribution') {
      this.counts = canvas('Counts of the bins')
      const from = told.offset ?? 0
      return [this.counts, ticks([from, from + (told.range ?? 256) - 1])]
    }
    this.plot = { canvas: canvas('Histogram'), ends: ticks([0, 255]), note: el('p') }
    return [this.plot.canvas, this.plot.ends, this.plot.note, this.facts]
  }

  // ---- what a run changes

  refresh () {
    const { studio } = this
    const one = studio.result.shown[studio.chosen]
    this.refreshLimits()
    if (one?.kind === 'distribution' && this.counts) plotCounts(this.counts, one.counts)
    if (one?.kind === 'extremes' && this.facts) setFacts(this.facts, factsOfExtremes(one))
    const full = studio.result.fulls.get(studio.chosen)
    if (full && this.plot) this.refreshPlot(full)
    this.fetchHistograms()
  }

  // Asks for the histograms of large images, of which only parts are here.
  fetchHistograms () {
    const { result, chosen, viewer } = this.studio
    const lacking = [chosen, this.parameters.limits?.name]
      .map(name => [name, result.fulls.get(name)]).filter(([, full]) => full && full.exact === undefined)
    this.late.make(lacking.length && (async () => {
      for (const [name, { mark }] of lacking) {
        if (result.fulls.get(name)?.mark !== mark) continue
        result.takeHistogram(name, mark, await call('histogram', { name, mark }))
      }
      this.refresh()
      viewer.draw()
    }))
  }

  refreshLimits () {
    const { limits } = this.parameters
    const full = limits && this.studio.result.fulls.get(limits.name)
    if (!full) return
    this.parameters.refreshRange()
    plotHistogram(limits.plot, full, limits.limit, limits.range)
    setNote(limits.note, full)
  }

  refreshPlot (full) {
    const { canvas, ends, note } = this.plot
    plotHistogram(canvas, full, null, full.bounds)
    full.bounds.forEach((value, k) => { ends.children[k].textContent = value })
    setNote(note, full)
    setFacts(this.facts, factsOfImage(full))
  }
}

// The second click of a double click isn't for what is chosen after the first one.
function removeButton (title, remove) {
  return el('button', { textContent: 'Remove', title, onclick: event => { if (event.detail < 2) remove() } })
}

// Says what a histogram is of, if that isn't the whole image.
function setNote (note, { exact, step, taken }) {
  note.hidden = !!exact
  note.textContent = `Of the part that is shown${step === 1 ? '' : `, the ${taken} of each ${step} × ${step} samples`}.`
}

function factsOfImage ({ fmt, width, height, valid, histogram }) {
  const [x0, y0, x1, y1] = valid
  const { count, nonzero, mean, least, most } = histogram
  return {
    format: fmt,
    size: `${width} × ${height}`,
    valid: x0 || y0 || x1 < width || y1 < height ? valid.join(', ') : 'the whole image',
    range: count ? `${least} … ${most}` : '–',
    mean: mean.toFixed(2),
    'not 0': nonzero.toLocaleString('en')
  }
}

function factsOfExtremes (one) {
  return Object.fromEntries(['min', 'max'].flatMap(what => [
    [what, `${one[what]}  at ${one[`${what}_at`].join(', ')}`], [`pixels of ${what}`, one[`${what}_count`].toLocaleString('en')]]))
}
