// The contents of a graph file, and edits of them. Every edit can be undone.
import { textOf } from './values.js'

const MOST_UNDONE = 500
const INPUTS = ['input', 'in1', 'in2']
const IMAGES = ['image', 'virtual image', 'delay']
// The most bytes of a name: run puts it into the names of files, after that of the picture.
const MOST_NAME = 200

export class Model {
  constructor (about) {
    this.about = about
    this.replace(about.contents)
  }

  // Begins with the contents of a file that was opened.
  replace (contents) {
    this.contents = structuredClone(contents)
    this.past = []
    this.future = []
    this.gesture = null
    // Images that are results only because no node reads them.
    this.automatic = new Set()
    this.markSaved()
  }

  get objects () { return this.contents.objects }
  get nodes () { return this.contents.nodes }
  get isModified () { return JSON.stringify(this.contents) !== this.saved }

  markSaved (contents = this.contents) { this.saved = JSON.stringify(contents) }

  // Changes the contents. The edits of one gesture, such as the drag of a slider, are undone
  // together.
  edit (change, gesture = null) {
    const before = structuredClone(this.contents)
    const result = change()
    if (JSON.stringify(before) === JSON.stringify(this.contents)) return result
    if (gesture === null || gesture !== this.gesture) this.past.push(before)
    if (this.past.length > MOST_UNDONE) this.past.shift()
    this.future = []
    this.gesture = gesture
    return result
  }

  endGesture () { this.gesture = null }

  // Takes back what a gesture has changed. Nodes and objects stay the same ones, since controls change
  // them.
  giveUp (gesture) {
    if (gesture !== this.gesture) return
    restore(this.contents, this.past.pop())
    this.gesture = null
  }

  undo () { return this.swap(this.past, this.future) }
  redo () { return this.swap(this.future, this.past) }

  swap (from, to) {
    if (!from.length) return false
    to.push(this.contents)
    this.contents = from.pop()
    this.gesture = null
    return true
  }

  // ---- looking. A node is an index, an object a name, and a slot of a delay a name such as d[-1].

  functionOf (node) { return this.about.functions[textOf(node.function)] }
  parameters (node) { return this.functionOf(node)?.parameters ?? [] }

  // The parameters that take an image, whether it is connected or not.
  imageParameters (node) { return this.parameters(node).filter(p => INPUTS.includes(p)) }

  // The name of the object that a node has as a parameter; null if it has none.
  operand (node, p) { return node[p] == null ? null : textOf(node[p]) }

  ins (node) { return this.named(node, p => INPUTS.includes(p)) }
  outs (node) { return this.named(node, p => this.about.operands[p] >= 2) }
  operands (node) { return this.named(node, p => p in this.about.operands) }

  named (node, isWanted) {
    return this.parameters(node).filter(p => isWanted(p) && node[p] != null).map(p => [p, this.operand(node, p)])
  }

  // Whether a node adds to the old samples of its output, which a virtual image doesn't have.
  isSum (at) { return at >= 0 && 'accum' in this.nodes[at] }

  // The object of a name, which may be that of a delay's slot.
  base (name) { return /^(.+)\[(0|-\d+)\]$/s.exec(name)?.[1] ?? name }

  object (name) {
    const base = this.base(name)
    return this.has(base) ? this.objects[base] : undefined
  }

  // The object that a node has as a parameter.
  objectOf (node, p) {
    const name = this.operand(node, p)
    return name !== null && this.has(name) ? this.objects[name] : undefined
  }

  isImage (name) { return IMAGES.includes(this.object(name)?.kind) }
  input () { return Object.keys(this.objects).find(name => this.objects[name].input) }

  writerOf (name) { return this.nodes.findIndex(node => this.outs(node).some(([, out]) => out === name)) }

  readersOf (name) {
    return this.nodes.flatMap((node, at) => this.ins(node).filter(([, one]) => one === name).map(([p]) => [at, p]))
  }

  // All images and slots, in the order of the file.
  images () {
    return Object.entries(this.objects).flatMap(([name, { kind, slots }]) =>
      kind === 'delay' ? Array.from({ length: this.slotsOf(slots) }, (_, k) => `${name}[${k ? -k : 0}]`)
        : IMAGES.includes(kind) ? [name] : [])
  }

  // The slots of a delay that are shown: no more than one can have.
  slotsOf (slots) { return Number.isInteger(slots) ? Math.min(slots, this.about.ranges['delay.slots'][1]) : 0 }

  // The images that depend on a node. Reading one of them would close a cycle.
  below (at, found = new Set()) {
    for (const [, out] of this.outs(this.nodes[at])) {
      if (found.has(out)) continue
      found.add(out)
      this.readersOf(out).forEach(([next]) => this.below(next, found))
    }
    return found
  }

  // Every object of JavaScript has properties such as toString, which are no names here.
  has (name) { return Object.hasOwn(this.objects, name) }

  // A name that no object has yet. `__proto__` can't be assigned as one.
  fresh (wish) {
    const stem = wish.replace(/_$/, '')
    for (let k = 1; ; k++) {
      const name = k === 1 ? stem : `${stem}${k}`
      if (!this.has(name) && name !== '__proto__') return name
    }
  }

  // ---- changing, each within edit()

  // Removes a node with the objects that only it uses. The readers of its output read its input.
  // Returns the name of that input.
  remove (at) {
    const node = this.nodes[at]
    const from = this.ins(node)[0]?.[1]
    for (const [, out] of this.outs(node)) {
      for (const [reader, p] of this.readersOf(out)) {
        if (from) this.nodes[reader][p] = from
        else delete this.nodes[reader][p]
      }
    }
    this.nodes.splice(at, 1)
    this.operands(node).forEach(([, name]) => this.removeUnused(this.base(name)))
    return from
  }

  // Removes an object that no node uses, unless it has content of its own.
  removeUnused (name) {
    const told = this.objects[name]
    const isUsed = this.nodes.some(node => this.operands(node).some(([, one]) => this.base(one) === name))
    if (told && !isUsed && !told.input && !told.file && !told.samples) delete this.objects[name]
  }

  // Removes an object that no node writes. Nodes that read it aren't connected any more.
  removeObject (name) {
    for (const node of this.nodes) {
      this.ins(node).filter(([, one]) => this.base(one) === name).forEach(([p]) => delete node[p])
    }
    delete this.objects[name]
  }

  // Returns whether the name can be given to the object.
  rename (old, wish) {
    const name = wish.trim()
    if (!name || name === old || this.has(name) || /\/|\0|\[(0|-\d+)\]$/.test(name)) return false
    if (new TextEncoder().encode(name).length > MOST_NAME) return false
    for (const node of this.nodes) {
      this.operands(node).filter(([, one]) => this.base(one) === old)
        .forEach(([p, one]) => { node[p] = name + one.slice(old.length) })
    }
    this.contents.objects = Object.fromEntries(
      Object.entries(this.objects).map(([key, told]) => [key === old ? name : key, told]))
    if (this.automatic.delete(old)) this.automatic.add(name)
    return true
  }

  // Makes an image a result, which `run` writes, or a virtual image.
  setResult (name, isResult, { fmt, width, height }) {
    this.automatic.delete(name)
    this.objects[name] = isResult ? { kind: 'image', format: fmt, width, height } : { kind: 'virtual image' }
  }
}

// Gives an object the values that it had before.
function restore (now, before) {
  Object.keys(now).filter(key => !Object.hasOwn(before, key)).forEach(key => delete now[key])
  if (Array.isArray(now)) now.length = before.length ?? 0
  for (const [key, value] of Object.entries(before)) {
    if (isInside(value) && isInside(now[key])) restore(now[key], value)
    else now[key] = value
  }
}

const isInside = value => typeof value === 'object' && value !== null
