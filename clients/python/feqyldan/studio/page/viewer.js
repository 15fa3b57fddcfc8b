// The large picture: zoom, the sample under the pointer, the valid rectangle, and marks in red over
// the input.
import { call } from './api.js'
import { byId, resize, setText } from './dom.js'
import { WHOLE } from './results.js'
import { LateCall } from './runs.js'
import { Sheets } from './sheets.js'
import { byName } from './values.js'

const [LEAST, GREATEST] = [0.02, 96]
// From this many pixels of the page for each sample on, the samples are written as numbers.
const NUMBERS = 26
const VALID = '#e0a030'
const EXTREMES = { max: '#e0482a', min: '#2a8fe0' }
// Pixels of a move by a key.
const STEP = 60

export class Viewer {
  constructor (studio) {
    this.studio = studio
    for (const id of ['large', 'overlay', 'contrast', 'under']) this[id] = byId(id)
    this.sheets = new Sheets()
    this.late = new LateCall(studio)
    Object.assign(this, { scale: 1, x: 0, y: 0, isFitted: true, wide: 1, tall: 1, pointed: null, samples: null })
    new ResizeObserver(([{ contentRect }]) => {
      Object.assign(this, { wide: contentRect.width, tall: contentRect.height })
      this.draw()
    }).observe(this.large)
    this.listen()
  }

  get name () { return this.studio.viewed }
  get full () { return this.studio.result.fulls.get(this.name) }
  get ratio () { return devicePixelRatio || 1 }
  times (name) { return this.contrast.checked ? this.studio.result.thumbs[name]?.times ?? 1 : 1 }

  // The part of an image that is seen, with a sample for each pixel of the screen. Images of usual
  // sizes are sent whole.
  partOf ({ width, height }) {
    if (width * height <= WHOLE) return { step: 1 }
    const { scale, x, y } = this.isFitted ? this.fitted({ width, height }) : this
    const step = Math.max(1, Math.floor(1 / scale))
    const [left, top] = [Math.floor(-x / scale), Math.floor(-y / scale)]
    const [right, bottom] = [(this.large.width - x) / scale, (this.large.height - y) / scale].map(Math.ceil)
    const clamp = (value, most) => Math.max(0, Math.min(most, value))
    return { x0: clamp(left, width - 1), y0: clamp(top, height - 1), x1: clamp(right, width), y1: clamp(bottom, height), step }
  }

  fitted ({ width, height }) {
    const scale = Math.min(this.large.width / width, this.large.height / height) * 0.985
    return { scale, x: (this.large.width - width * scale) / 2, y: (this.large.height - height * scale) / 2 }
  }

  // ---- drawing

  draw () {
    const { ratio, full } = this
    resize(this.large, Math.round(this.wide * ratio), Math.round(this.tall * ratio))
    const context = this.large.getContext('2d')
    context.setTransform(1, 0, 0, 1, 0, 0)
    context.clearRect(0, 0, this.large.width, this.large.height)
    this.large.setAttribute('aria-label', full ? `${this.name}: ${full.fmt}, ${full.width} by ${full.height}` : 'No picture')
    if (!full) {
      setText(byId('viewname'), this.name ?? '')
      setText(byId('zoom'), '')
      return
    }
    if (this.isFitted) Object.assign(this, this.fitted(full))
    const base = this.studio.result.fulls.get(this.studio.overlaid)
    const isOver = base && base.width === full.width && base.height === full.height
    context.imageSmoothingEnabled = this.scale < 1
    context.imageSmoothingQuality = 'low'
    if (isOver) this.paintMarks(context, full, base)
    else this.paint(context, full, this.sheets.get(this.name, 'greys', full, this.times(this.name)))
    this.paintValid(context, full)
    this.paintExtremes(context)
    if (this.scale >= NUMBERS * ratio) this.paintNumbers(context, full)
    this.sayZoom(isOver)
    this.fetchParts()
  }

  paint (context, { x0, y0, columns, rows, step }, sheet) {
    const { scale, x, y } = this
    context.drawImage(sheet, x + x0 * scale, y + y0 * scale, columns * step * scale, rows * step * scale)
  }

  paintMarks (context, full, base) {
    this.paint(context, base, this.sheets.get(this.studio.overlaid, 'greys', base, 1))
    const marks = this.sheets.get(this.name, 'marks', full)
    this.paint(context, full, marks)
    if (this.scale >= 1) return
    // A single mark stays visible in a small picture.
    for (const [dx, dy] of [[0.7, 0], [0, 0.7]]) {
      context.save()
      context.translate(dx, dy)
      this.paint(context, full, marks)
      context.restore()
    }
  }

  paintValid (context, full) {
    const [x0, y0, x1, y1] = full.valid
    const { scale, x, y } = this
    const isWhole = !x0 && !y0 && x1 === full.width && y1 === full.height
    context.lineWidth = isWhole ? 1 : 1.5
    context.strokeStyle = isWhole ? '#8888' : VALID
    context.setLineDash(isWhole ? [] : [6, 3])
    context.strokeRect(x + x0 * scale, y + y0 * scale, (x1 - x0) * scale, (y1 - y0) * scale)
    context.setLineDash([])
  }

  // Where the extremes are, if the chosen object has some.
  paintExtremes (context) {
    const one = this.studio.result.shown[this.studio.chosen]
    if (one?.kind !== 'extremes') return
    for (const [what, colour] of Object.entries(EXTREMES)) {
      const [column, row] = one[`${what}_at`]
      const [x, y] = [this.x + (column + 0.5) * this.scale, this.y + (row + 0.5) * this.scale]
      context.strokeStyle = context.fillStyle = colour
      context.lineWidth = 1.5
      context.beginPath()
      context.arc(x, y, 9, 0, 7)
      context.stroke()
      context.font = `${11 * this.ratio}px sans-serif`
      context.fillText(`${what} ${one[what]}`, x + 12, y - 8)
    }
  }

  paintNumbers (context, full) {
    const { scale, x, y } = this
    context.font = `${Math.min(13 * this.ratio, scale / 2.7)}px monospace`
    context.textAlign = 'center'
    context.textBaseline = 'middle'
    const [left, top] = [Math.max(0, Math.floor(-x / scale)), Math.max(0, Math.floor(-y / scale))]
    const right = Math.min(full.width, Math.ceil((this.large.width - x) / scale))
    const bottom = Math.min(full.height, Math.ceil((this.large.height - y) / scale))
    for (let row = top; row < bottom; row++) {
      for (let column = left; column < right; column++) this.paintNumber(context, full, column, row)
    }
    context.textAlign = 'start'
    context.textBaseline = 'alphabetic'
  }

  paintNumber (context, full, column, row) {
    const sample = full.at(column, row)
    if (sample === undefined) return
    const [low, high] = full.range
    const bright = full.fmt === 'U8' ? sample * this.times(this.name) : 255 * (sample - low) / Math.max(1, high - low)
    context.fillStyle = this.studio.overlaid && sample ? '#fff' : bright > 120 ? '#000a' : '#fffb'
    context.fillText(sample, this.x + (column + 0.5) * this.scale, this.y + (row + 0.5) * this.scale)
  }

  sayZoom (isOver) {
    const zoom = this.scale / this.ratio
    const times = this.times(this.name)
    setText(byId('zoom'), zoom >= 1 ? `${zoom.toFixed(zoom < 10 ? 1 : 0)}×` : `${Math.round(100 * zoom)} %`)
    setText(byId('viewname'), isOver ? `${this.name} on ${this.studio.overlaid}` : times > 1 ? `${this.name} ×${times}` : this.name)
  }

  // Asks for the parts of large images that are seen now: of the image, and of the one below it.
  fetchParts () {
    const { name, studio: { overlaid, panel, result } } = this
    const lacking = [name, overlaid].map(one => [one, result.fulls.get(one)])
      .filter(([, full]) => full && !full.covers(this.partOf(full)))
    this.late.make(lacking.length && (async () => {
      for (const [one, full] of lacking) {
        const { mark, mask } = result.shown[one] ?? {}
        result.takePart(one, await call('part', { name: one, mark, mask, ...this.partOf(full) }))
      }
      this.draw()
      // The histogram may be of the part that is shown.
      panel.refresh()
    }))
  }

  // ---- moving

  zoom (factor, [px, py] = [this.large.width / 2, this.large.height / 2]) {
    const wish = Math.max(LEAST, Math.min(GREATEST, this.scale * factor))
    // One to one is easy to hit.
    const scale = Math.abs(Math.log(wish / this.ratio)) < 0.04 ? this.ratio : wish
    const real = scale / this.scale
    this.x = px - (px - this.x) * real
    this.y = py - (py - this.y) * real
    Object.assign(this, { scale, isFitted: false })
    this.draw()
  }

  fit () {
    this.isFitted = true
    this.draw()
  }

  one () { this.zoom(this.ratio / this.scale) }

  // Moves the picture by a step in a direction.
  nudge (dx, dy) {
    Object.assign(this, { x: this.x - STEP * dx, y: this.y - STEP * dy, isFitted: false })
    this.draw()
  }

  // The place of the pointer in the canvas.
  place (event) {
    const around = this.large.getBoundingClientRect()
    return [(event.clientX - around.left) * this.ratio, (event.clientY - around.top) * this.ratio]
  }

  listen () {
    const { large } = this
    large.addEventListener('wheel', event => {
      event.preventDefault()
      this.zoom(Math.exp(-event.deltaY * (event.deltaMode ? 0.06 : 0.002)), this.place(event))
    }, { passive: false })
    large.addEventListener('pointerdown', event => this.drag(event))
    large.addEventListener('pointerup', () => { this.dragging = null })
    large.addEventListener('pointermove', event => {
      this.dragging?.(event)
      this.point(this.place(event))
    })
    large.addEventListener('pointerleave', () => {
      this.pointed = null
      this.tell()
      this.studio.graph.showSamples(null)
    })
    large.addEventListener('dblclick', () => this.fit())
    this.overlay.addEventListener('change', () => this.studio.wantMore())
    this.contrast.addEventListener('change', () => this.draw())
    byId('fit').onclick = () => this.fit()
    byId('one').onclick = () => this.one()
  }

  drag (event) {
    const [startX, startY] = this.place(event)
    const { x, y } = this
    this.large.setPointerCapture(event.pointerId)
    this.dragging = move => {
      const [nowX, nowY] = this.place(move)
      if (Math.hypot(nowX - startX, nowY - startY) < 3) return
      Object.assign(this, { x: x + nowX - startX, y: y + nowY - startY, isFitted: false })
      this.draw()
    }
  }

  // ---- the sample under the pointer

  point ([px, py]) {
    const { full } = this
    if (!full) return
    const x = Math.floor((px - this.x) / this.scale)
    const y = Math.floor((py - this.y) / this.scale)
    this.pointed = x >= 0 && y >= 0 && x < full.width && y < full.height ? [x, y] : null
    this.tell()
    this.probe()
  }

  tell () {
    const { full, pointed, studio } = this
    if (!full || !pointed) { setText(this.under, ''); return }
    const [x, y] = pointed
    const [x0, y0, x1, y1] = full.valid
    const base = studio.result.fulls.get(studio.overlaid)
    const sample = full.at(x, y) ?? this.samples?.[this.name] ?? ''
    const outside = x < x0 || y < y0 || x >= x1 || y >= y1 ? '  not valid' : ''
    setText(this.under, `x ${x}  y ${y}   ${sample}${base ? ` (${base.at(x, y) ?? this.samples?.[studio.overlaid] ?? ''})` : ''}${outside}`)
  }

  // Forgets the samples of the run before, and asks for those of this one.
  probeAnew () {
    this.samples = null
    this.tell()
    if (this.pointed) this.probe()
  }

  // Asks for the sample of every image at the pixel, one call at a time.
  async probe () {
    if (this.isAsking) { this.isLate = true; return }
    this.isAsking = true
    const { result } = this.studio
    try {
      do {
        this.isLate = false
        if (!this.pointed) break
        const [x, y] = this.pointed
        const { shown } = result
        const samples = await call('pixel', { x, y, marks: result.has() })
        if (!this.pointed) break
        if (shown !== result.shown) continue
        this.samples = byName(samples)
        this.studio.graph.showSamples(this.samples)
        this.tell()
      } while (this.isLate)
    } catch (error) {
      this.studio.say(error.message, true)
    } finally { this.isAsking = false }
    if (!this.pointed) this.studio.graph.showSamples(null)
  }
}
