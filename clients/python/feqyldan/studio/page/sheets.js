// Canvases with an image's samples as greys, or as red marks; each is made once for its samples.
import { grey, resize } from './dom.js'

const MARK = 0xff2a1ee6
const MOST = 12

export class Sheets {
  constructor () { this.sheets = new Map() }

  // Returns a canvas with one pixel for each sample of a Full. Greys are multiplied by `times`.
  get (name, kind, full, times = 1) {
    const key = `${kind} ${times} ${name}`
    const old = this.sheets.get(key)
    if (old?.full === full) return old.canvas
    const canvas = old?.canvas ?? document.createElement('canvas')
    resize(canvas, full.columns, full.rows)
    const isReused = old?.data.width === full.columns && old.data.height === full.rows
    const data = isReused ? old.data : new ImageData(full.columns, full.rows)
    const pixels = new Uint32Array(data.data.buffer)
    if (kind === 'marks') paintMarks(pixels, full)
    else paintGreys(pixels, full, times)
    canvas.getContext('2d').putImageData(data, 0, 0)
    if (this.sheets.size > MOST) this.sheets.clear()
    this.sheets.set(key, { full, canvas, data })
    return canvas
  }
}

function paintMarks (pixels, { samples }) {
  pixels.fill(0)
  for (let k = 0; k < samples.length; k++) if (samples[k] !== 0) pixels[k] = MARK
}

function paintGreys (pixels, { fmt, samples, range: [low, high] }, times) {
  if (fmt === 'U8') {
    const greys = Uint32Array.from({ length: 256 }, (_, k) => grey(Math.min(255, k * times)))
    for (let k = 0; k < samples.length; k++) pixels[k] = greys[samples[k]]
    return
  }
  const by = 255 / Math.max(1, high - low)
  for (let k = 0; k < samples.length; k++) pixels[k] = grey(Math.max(0, Math.min(255, ((samples[k] - low) * by) | 0)))
}
