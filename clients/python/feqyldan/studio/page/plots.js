// Plots of counts: histograms of images with the limits of a threshold, and distributions.
import { cleared } from './dom.js'
import { limitsOf, numberOf } from './values.js'

// Paints an image's histogram over a range of values. The heights are logarithmic; the samples that
// pass a threshold have the accent's colour.
export function plotHistogram (canvas, full, limit, [low, high]) {
  if (!full || !canvas.isConnected) return
  const { bins, low: least, high: most } = full.histogram
  const span = high - low + 1
  const place = k => (least + (most - least + 1) * k / bins.length - low) / span
  const painter = new Painter(canvas, bins)
  const limits = limit ? limitsOf(limit) : []
  const isBetween = Array.isArray(limit?.between)
  const passes = k => {
    const value = leastIn(full.histogram, k)
    return isBetween ? value >= limits[0] && value <= limits[1] : value > limits[0]
  }
  painter.bars(place, limit ? k => passes(k) ? '--accent' : '--bar' : () => '--bar')
  limits.forEach(value => painter.limit(value, (value - low + (isBetween ? 0 : 1)) / span))
}

// The least value that a bin of a histogram counts.
export const leastIn = ({ bins, low, high }, k) => Math.ceil(low + (high - low + 1) * k / bins.length)

export function plotCounts (canvas, counts) {
  if (canvas.isConnected) new Painter(canvas, counts).bars(k => k / counts.length, () => '--bar')
}

// Paints a lookup table of bytes as a curve.
export function plotTable (canvas, entries) {
  const [context, wide, tall] = cleared(canvas)
  context.strokeStyle = getComputedStyle(canvas).getPropertyValue('--accent')
  context.beginPath()
  entries.forEach((value, k) => context.lineTo(k * wide / 255, tall - numberOf(value, 0) * tall / 255))
  context.stroke()
}

class Painter {
  constructor (canvas, counts) {
    [this.context, this.wide, this.tall] = cleared(canvas)
    this.style = getComputedStyle(canvas)
    this.counts = counts
    this.most = Math.log1p(Math.max(1, ...counts))
  }

  bars (place, colourOf) {
    const { context, counts, wide, tall } = this
    const paths = new Map()
    const gap = counts.length < 64 ? 1 : 0
    counts.forEach((count, k) => {
      if (!count) return
      const high = (tall - 4) * Math.log1p(count) / this.most
      const left = place(k) * wide
      const colour = colourOf(k)
      if (!paths.has(colour)) paths.set(colour, new Path2D())
      paths.get(colour).rect(left, tall - high, Math.max(0.8, place(k + 1) * wide - left - gap), high)
    })
    for (const [colour, path] of paths) {
      context.fillStyle = this.style.getPropertyValue(colour)
      context.fill(path)
    }
  }

  // A limit as a line with a handle and its value.
  limit (value, share) {
    const { context, wide, tall } = this
    const x = wide * share
    const isRight = x > wide - 30
    context.fillStyle = this.style.getPropertyValue('--text')
    context.fillRect(x - 0.5, 0, 1, tall)
    context.beginPath()
    context.moveTo(x - 5, 0)
    context.lineTo(x + 5, 0)
    context.lineTo(x, 7)
    context.fill()
    context.font = `10.5px ${this.style.getPropertyValue('--mono')}`
    context.textAlign = isRight ? 'right' : 'left'
    context.fillText(value, x + (isRight ? -7 : 7), 9)
    context.textAlign = 'left'
  }
}
