// What the last run has left: faults, what each object holds, thumbnails, and the samples of the
// images that are shown large.
import { samplesOf } from './api.js'
import { byName } from './values.js'

// Images with more samples than this are sent in parts, as they are seen.
export const WHOLE = 4e6

export class Results {
  constructor () {
    Object.assign(this, { faults: [], waiting: {}, shown: byName(), remembers: false, thumbs: byName(), fulls: new Map() })
  }

  faultsOfNode (at) { return at < 0 ? [] : this.faults.filter(fault => fault.node === at + 1) }
  faultsOfObject (name) { return this.faults.filter(fault => fault.object === name) }

  // The marks of the thumbnails that are here: they aren't sent again.
  has () { return Object.fromEntries(Object.entries(this.thumbs).map(([name, { mark }]) => [name, mark])) }

  // Takes the reply of a run, in which the wanted images have their samples if those are new.
  take (reply, wanted) {
    const [shown, thumbs] = [byName(reply.shown), byName()]
    for (const [name, one] of Object.entries(shown)) {
      if (one.kind !== 'image') continue
      thumbs[name] = one.thumb ? { ...one.thumb, mark: one.mark, bytes: bytesOf(reply.parts[one.thumb.part]) } : this.thumbs[name]
      if (one.full) this.keep(name, one, reply.parts)
    }
    for (const [name, full] of this.fulls) {
      if (shown[name]?.mark !== full.mark || !wanted.includes(name)) this.fulls.delete(name)
    }
    const { faults, waiting, remembers } = reply
    Object.assign(this, { faults, waiting, shown, remembers, thumbs })
  }

  // Takes a further part of an image, unless the image has changed since.
  takePart (name, reply) {
    if (this.shown[name]?.mark === reply.mark) this.keep(name, reply, reply.parts)
  }

  keep (name, one, parts) {
    const last = this.fulls.get(name)
    this.fulls.set(name, new Full(one, parts, last?.mark === one.mark ? last.exact : undefined))
  }

  // Takes the histogram of a large image, unless the image has changed since.
  takeHistogram (name, mark, histogram) {
    const full = this.fulls.get(name)
    if (full?.mark === mark) this.fulls.set(name, full.withExact(histogram))
  }
}

export const bytesOf = part => new Uint8Array(part.buffer, part.at, part.size)

// The samples of an image, or of a part: one for each square of `step` samples from x0, y0 on,
// the mean, the greatest or the first as `taken` says. `exact` is the histogram of the whole image;
// it is undefined until it has been asked for, and null if the server has none.
export class Full {
  constructor (one, parts, exact) {
    const { place: [x0, y0, columns, rows, step], taken } = one.full
    const { fmt, width, height, valid, mark } = one
    Object.assign(this, { fmt, width, height, valid, mark, x0, y0, columns, rows, step, taken })
    this.samples = samplesOf(parts[one.full.part], fmt)
    this.ofPart = histogram(this, bounds(this))
    const isWhole = step === 1 && columns === width && rows === height
    this.exact = isWhole ? this.ofPart : exact
  }

  withExact (exact) { return Object.assign(Object.create(Full.prototype), this, { exact }) }

  get histogram () { return this.exact ?? this.ofPart }
  get bounds () { return [this.histogram.low, this.histogram.high] }

  // The sample at a pixel; undefined if it isn't here.
  at (x, y) {
    const column = x - this.x0
    const row = y - this.y0
    const isHere = this.step === 1 && column >= 0 && row >= 0 && column < this.columns && row < this.rows
    return isHere ? this.samples[row * this.columns + column] : undefined
  }

  // Whether the part covers another one at least as finely.
  covers ({ x0 = 0, y0 = 0, x1 = this.width, y1 = this.height, step = 1 }) {
    return this.step <= step && this.x0 <= x0 && this.y0 <= y0 &&
      this.x0 + this.columns * this.step >= x1 && this.y0 + this.rows * this.step >= y1
  }

  // The values that become black and white.
  get range () {
    const [low, high] = this.bounds
    const most = Math.max(-low, high)
    return this.fmt === 'U8' ? [0, 255] : this.fmt === 'S16' && low < 0 ? [-most, most] : [low, high]
  }
}

function bounds ({ fmt, samples }) {
  if (fmt === 'U8') return [0, 255]
  let low = Infinity
  let high = -Infinity
  for (const sample of samples) {
    if (sample < low) low = sample
    if (sample > high) high = sample
  }
  return [low, high]
}

// The counts of the valid samples in 256 bins, and what they add up to.
function histogram ({ samples, columns, rows, x0, y0, step, valid }, [low, high]) {
  const inside = (from, to, start, count) => [Math.max(0, Math.ceil((from - start) / step)), Math.min(count, Math.ceil((to - start) / step))]
  const [left, right] = inside(valid[0], valid[2], x0, columns)
  const [top, bottom] = inside(valid[1], valid[3], y0, rows)
  const bins = new Uint32Array(256)
  const by = 256 / (high - low + 1)
  let [nonzero, sum, least, most] = [0, 0, Infinity, -Infinity]
  for (let row = top; row < bottom; row++) {
    for (let k = row * columns + left, end = row * columns + right; k < end; k++) {
      const sample = samples[k]
      bins[((sample - low) * by) | 0]++
      sum += sample
      if (sample !== 0) nonzero++
      if (sample < least) least = sample
      if (sample > most) most = sample
    }
  }
  const count = Math.max(0, right - left) * Math.max(0, bottom - top)
  return { bins, low, high, count, nonzero, least, most, mean: count ? sum / count : 0 }
}
