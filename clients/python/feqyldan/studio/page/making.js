// New nodes and objects, with values that give a picture to look at.

// The names of outputs, where the function's own name wouldn't suit an image.
const OUTPUTS = {
  and_: 'both', or_: 'either', not_: 'inverted', absdiff: 'difference', threshold: 'marks', box3x3: 'box',
  gaussian3x3: 'smooth', median3x3: 'median', erode3x3: 'eroded', dilate3x3: 'dilated', convolve: 'convolved',
  integral_image: 'integral', convert_depth: 'converted', table_lookup: 'looked_up', add: 'sum', subtract: 'less',
  multiply: 'product', min: 'lower', max: 'higher'
}
const LIMIT = 24
const SHARPEN = { rows: [[0, -1, 0], [-1, 8, -1], [0, -1, 0]], scale: 4 }

// Adds a node that reads an image of this shape (its format and sides), and returns the name of its
// first output. With `inserts`, the readers of the image then read the node's output.
export function addNode (model, name, from, shape, inserts = false) {
  const told = model.about.functions[name]
  const readers = inserts ? model.readersOf(from) : []
  const maker = new NodeMaker(model, name, from, shape, readers.length > 0)
  for (const p of told.parameters) maker.set(p)
  // What was a result only because no node read it isn't one any more.
  if (model.automatic.delete(from) && model.objects[from]?.kind === 'image') {
    model.objects[from] = { kind: 'virtual image' }
  }
  readers.forEach(([at, p]) => { model.nodes[at][p] = maker.output })
  model.nodes.push(maker.node)
  return maker.output
}

class NodeMaker {
  constructor (model, name, from, shape, isBetween) {
    Object.assign(this, { model, name, from, shape, isBetween })
    this.node = { function: name }
    this.output = null
  }

  set (p) {
    const { node } = this
    const values = {
      input: () => this.from,
      in1: () => this.from,
      in2: () => this.second(),
      policy: () => 'SATURATE',
      shift: () => this.name === 'multiply' ? 8 : 0,
      border: () => 'REPLICATE',
      threshold: () => this.object('limit', { kind: 'threshold', format: this.narrow, above: LIMIT, true_value: 255, false_value: 0 }),
      lut: () => this.object('table', { kind: 'lookup table', format: this.narrow, entries: identity(this.narrow) }),
      convolution: () => this.object('kernel', { kind: 'convolution', ...structuredClone(SHARPEN) }),
      distribution: () => this.result('counts', { kind: 'distribution', bins: 32, offset: 0, range: 256 }),
      extremes: () => this.result('extremes', { kind: 'extremes' }),
      accum: () => this.result('sums', this.image('S16')),
      output: () => this.written(OUTPUTS[this.name] ?? this.name),
      output_x: () => this.written('gradient_x'),
      output_y: () => this.written('gradient_y')
    }
    const value = values[p]()
    if (value !== undefined) node[p] = value
  }

  get narrow () { return this.shape.fmt === 'S16' ? 'S16' : 'U8' }

  image (format) { return { kind: 'image', format, width: this.shape.width, height: this.shape.height } }

  // The second input: a reference picture if there is one, or else the input.
  second () {
    const { model, from } = this
    const others = model.images().filter(name => name !== from)
    return others.find(name => model.objects[name]?.file) ?? others.find(name => model.objects[name]?.input)
  }

  object (wish, told) {
    const name = this.model.fresh(wish)
    this.model.objects[name] = told
    return name
  }

  result (wish, told) {
    const name = this.object(wish, told)
    this.output ??= name
    return name
  }

  written (wish) {
    const opened = this.model.about.functions[this.name].opened
    const other = this.shape.fmt === 'S16' ? 'U8' : 'S16'
    const format = opened || (this.name === 'convert_depth' ? other : this.shape.fmt)
    const name = this.result(wish, this.isBetween ? { kind: 'virtual image' } : this.image(format))
    if (!this.isBetween) this.model.automatic.add(name)
    return name
  }
}

function identity (format) {
  return format === 'U8' ? Array.from({ length: 256 }, (_, k) => k) : Array.from({ length: 65536 }, (_, k) => k - 32768)
}

// Adds a reference picture, and returns its name.
export function addPicture (model, file) {
  const stem = file.split('/').pop().replace(/\.\w+$/, '').replace(/\W+/g, '_')
  const name = model.fresh(stem || 'picture')
  model.objects[name] = { kind: 'image', file }
  return name
}

// Adds a delay that each run fills with an image, and returns the name of the slot with the image of
// the run before.
export function addDelay (model, from, { fmt, width, height }) {
  const name = model.fresh('delay')
  model.objects[name] = { kind: 'delay', format: fmt, width, height, slots: 2, ages: true }
  model.nodes.push({ function: 'max', in1: from, in2: from, output: `${name}[0]` })
  return `${name}[-1]`
}
