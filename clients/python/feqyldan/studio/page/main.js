// The studio: what is chosen, and the edits of the graph.
import { call, fileOfTab } from './api.js'
import { byId, followPointer, setText } from './dom.js'
import { Files } from './files.js'
import { GraphView } from './graph.js'
import { Keys } from './keys.js'
import { addDelay, addNode, addPicture } from './making.js'
import { Model } from './model.js'
import { Palette } from './palette.js'
import { Panel } from './panel.js'
import { setLimit } from './parameters.js'
import { Results } from './results.js'
import { Runs } from './runs.js'
import { Strip } from './strip.js'
import { limitsOf, numberOf, textOf } from './values.js'
import { Viewer } from './viewer.js'

// The image of a graph whose input isn't known yet.
const SHAPE = { fmt: 'U8', width: 640, height: 480 }
const [LEAST_GRAPH, LEAST_VIEWER] = [90, 260]

class Studio {
  constructor (about) {
    this.about = about
    this.model = new Model(about)
    this.at = 0
    this.runs = new Runs(this)
    this.graph = new GraphView(this)
    this.viewer = new Viewer(this)
    this.panel = new Panel(this)
    this.palette = new Palette(this)
    this.strip = new Strip(this)
    this.files = new Files(this)
    this.keys = new Keys(this)
    this.listen()
    this.begin()
  }

  // Begins with a graph file that was opened.
  begin () {
    this.model.replace(this.about.contents)
    // A run of the file before leaves nothing to this one.
    this.result = new Results()
    this.chosen = this.model.input() ?? null
    // The chosen node, if it has no output that could be chosen.
    this.outputless = -1
    this.runAnew()
    // The start of a run has cleared what was said.
    if (this.about.note) this.say(this.about.note, true)
  }

  get pictureName () { return this.about.pictures[this.at] ?? 'no picture' }
  get chosenNode () { return this.chosen === null ? this.outputless : this.model.writerOf(this.chosen) }

  // The image in the viewer: the chosen one, or the input of what isn't an image.
  get viewed () {
    if (this.result.shown[this.chosen]?.kind === 'image') return this.chosen
    const node = this.model.nodes[this.chosenNode]
    const from = node ? this.model.ins(node)[0]?.[1] : null
    return this.result.shown[from]?.kind === 'image' ? from : this.model.input() ?? null
  }

  // The input, if the viewed image is shown over it.
  get overlaid () {
    const input = this.model.input()
    const isShown = this.viewer.overlay.checked && this.viewed !== input
    return isShown && this.result.shown[this.viewed]?.fmt === 'U8' ? input : null
  }

  // The images whose samples the page needs: for the viewer, and for histograms.
  needed () {
    const node = this.model.nodes[this.chosenNode]
    const input = node ? this.model.operand(node, 'input') : null
    return [...new Set([this.chosen, this.viewed, this.overlaid, input].filter(name => name != null))]
  }

  // ---- showing

  show () {
    this.keepChoice()
    const structure = this.structure()
    if (structure !== this.drawn) {
      this.drawn = structure
      this.graph.draw()
      this.panel.draw()
    } else {
      this.graph.repaint()
      this.graph.refreshSettings()
      this.panel.refresh()
    }
    this.viewer.draw()
    this.viewer.tell()
    this.bar()
  }

  // Chooses the input if an edit has removed what was chosen. A node may write an object that isn't
  // there.
  keepChoice () {
    const { model } = this
    const isThere = this.chosenNode >= 0 ? model.nodes[this.chosenNode] : this.chosen !== null && model.object(this.chosen)
    if (!isThere) Object.assign(this, { chosen: model.input() ?? null, outputless: -1 })
  }

  // A text that changes whenever the cards have to be drawn anew.
  structure () {
    const { model, result } = this
    const nodes = model.nodes.map(node => [node.function, model.operands(node)])
    const objects = Object.entries(model.objects).map(([name, { kind, input, file, slots }]) => [name, kind, input, file, slots])
    return JSON.stringify([nodes, objects, result.faults, result.waiting, Object.keys(result.shown), this.chosen, this.outputless])
  }

  bar () {
    const { model, about } = this
    setText(byId('file'), about.name)
    byId('file').title = `${about.folder}/${about.name}`
    byId('modified').hidden = !model.isModified
    document.title = `${model.isModified ? '• ' : ''}${about.name} – Feqyldan studio`
    byId('undo').disabled = !model.past.length
    byId('redo').disabled = !model.future.length
    byId('stepper').hidden = !about.pictures.length
    setText(byId('picture-name'), this.pictureName)
    byId('picture').title = this.pictureName
    setText(byId('picture-place'), `${this.at + 1}/${about.pictures.length}`)
  }

  say (words, isBad = false) {
    setText(byId('status'), words)
    byId('status').title = words
    byId('status').classList.toggle('bad', isBad)
  }

  // ---- choosing

  choose (name) {
    Object.assign(this, { chosen: name, outputless: -1 })
    this.wantMore()
    this.graph.reveal(name)
  }

  chooseNode (at) {
    const out = this.model.outs(this.model.nodes[at])[0]?.[1]
    if (out) { this.choose(out); return }
    Object.assign(this, { chosen: null, outputless: at })
    this.wantMore()
  }

  // Shows what is chosen, and asks for samples that aren't here.
  wantMore () {
    this.show()
    const { shown, fulls } = this.result
    if (this.needed().some(name => shown[name]?.kind === 'image' && !fulls.has(name))) this.runs.start()
    else this.strip.fillSoon()
  }

  step (by) { this.go(Math.max(0, Math.min(this.about.pictures.length - 1, this.at + by))) }

  go (at) {
    if (at === this.at) return
    this.at = at
    this.strip.mark()
    this.runs.start()
  }

  // ---- edits

  // Changes the graph and runs it. Edits of one gesture are undone together.
  edit (change, gesture = null, stamp = undefined) {
    const result = this.model.edit(change, gesture)
    if (gesture === null) this.drawn = ''
    this.bar()
    this.runs.start(stamp)
    return result
  }

  // Takes back what a gesture has changed, and says why.
  giveUp (gesture, words) {
    this.model.giveUp(gesture)
    this.bar()
    this.runs.start()
    this.say(words, true)
  }

  // The image that a new node reads, and its shape.
  source () {
    const from = this.chosen !== null && this.model.isImage(this.chosen) ? this.chosen : this.viewed
    return [from, this.result.shown[from] ?? this.result.shown[this.model.input()] ?? SHAPE]
  }

  add (name, inserts = false) {
    const [from, shape] = this.source()
    this.chosen = this.edit(() => addNode(this.model, name, from, shape, inserts))
  }

  addPicture () {
    const { files } = this.about
    if (!files.length) { this.say('There is no picture: name some on the command line.', true); return }
    const used = Object.values(this.model.objects).map(({ file }) => file)
    this.chosen = this.edit(() => addPicture(this.model, files.find(file => !used.includes(file)) ?? files[0]))
  }

  addDelay () {
    const [from, shape] = this.source()
    this.chosen = this.edit(() => addDelay(this.model, from, shape))
  }

  remove (at) {
    const from = this.edit(() => this.model.remove(at))
    Object.assign(this, { chosen: from ?? this.model.input() ?? null, outputless: -1 })
    this.redraw()
  }

  removeObject (name) {
    this.edit(() => this.model.removeObject(name))
    this.chosen = this.model.input() ?? null
    this.redraw()
  }

  removeChosen () {
    const at = this.chosenNode
    if (at >= 0) this.remove(at)
    else if (this.chosen !== null && this.chosen !== this.model.input()) this.removeObject(this.model.base(this.chosen))
  }

  connect (name, at, parameter) { this.edit(() => { this.model.nodes[at][parameter] = name }) }

  // Returns whether the object has the new name.
  rename (old, wish) {
    const isRenamed = this.edit(() => this.model.rename(old, wish))
    if (isRenamed && this.chosen !== null && this.model.base(this.chosen) === old) this.chosen = wish.trim() + this.chosen.slice(old.length)
    return isRenamed
  }

  undo () { if (this.model.undo()) this.runAnew() }
  redo () { if (this.model.redo()) this.runAnew() }

  runAnew () {
    this.redraw()
    this.runs.start()
  }

  // Draws the graph before it has run, if it is another one or an edit has taken nodes or objects away.
  // The controls of these would change what the graph doesn't have any more, or another node in their
  // place. The faults were those of the nodes before. After the run it is drawn anew.
  redraw () {
    Object.assign(this.result, { faults: [], waiting: {} })
    this.drawn = ''
    this.show()
    this.drawn = ''
  }

  toggleResult () {
    const { model, chosen, chosenNode } = this
    const one = this.result.shown[chosen]
    const told = model.objects[chosen]
    if (chosenNode < 0 || one?.kind !== 'image' || !told || model.isSum(chosenNode)) return
    this.edit(() => model.setResult(chosen, told.kind !== 'image', one))
  }

  // Moves the limit of the chosen threshold, or of the nearest one before the chosen image.
  nudgeLimit (by) {
    const { model, about: { ranges } } = this
    const { nodes } = model
    let at = this.chosenNode
    for (let k = 0; k < nodes.length && at >= 0 && !nodes[at].threshold; k++) at = model.writerOf(model.ins(nodes[at])[0]?.[1])
    const limit = at < 0 ? undefined : model.objectOf(nodes[at], 'threshold')
    if (!limit) return
    const [least, most] = ranges[`threshold.${textOf(limit.format)}`] ?? ranges['threshold.U8']
    const now = numberOf(limitsOf(limit)[0], least)
    this.edit(() => setLimit(limit, 0, Math.max(least, Math.min(most, now + by))), `nudge ${at}`)
    this.panel.draw()
  }

  // ---- the page

  listen () {
    byId('undo').onclick = () => this.undo()
    byId('redo').onclick = () => this.redo()
    byId('previous').onclick = () => this.step(-1)
    byId('next').onclick = () => this.step(1)
    byId('status').onclick = () => this.say('')
    this.listenToTheme()
    this.listenToSplitter()
  }

  listenToTheme () {
    const dark = matchMedia('(prefers-color-scheme: dark)')
    const set = name => {
      document.documentElement.dataset.theme = name
      this.drawn = ''
    }
    const wish = () => localStorage.getItem('theme') ?? (dark.matches ? 'dark' : 'light')
    byId('theme').onclick = () => {
      localStorage.setItem('theme', document.documentElement.dataset.theme === 'dark' ? 'light' : 'dark')
      set(wish())
      this.show()
    }
    dark.onchange = () => {
      set(wish())
      this.show()
    }
    set(wish())
  }

  listenToSplitter () {
    const splitter = byId('splitter')
    const middle = byId('middle')
    splitter.setAttribute('aria-valuenow', byId('graph').clientHeight)
    const resize = tall => {
      const height = Math.max(LEAST_GRAPH, Math.min(innerHeight - LEAST_VIEWER, tall))
      middle.style.setProperty('--graph', `${height}px`)
      splitter.setAttribute('aria-valuenow', Math.round(height))
    }
    splitter.onpointerdown = () => followPointer(move => resize(move.clientY - middle.getBoundingClientRect().top), () => {})
    splitter.onkeydown = event => {
      const by = { ArrowUp: -20, ArrowDown: 20 }[event.key]
      if (by) resize(byId('graph').clientHeight + by)
    }
  }
}

try {
  window.studio = new Studio(await call('about', { name: fileOfTab() }))
} catch (error) {
  byId('status').textContent = error.message
  byId('status').classList.add('bad')
}
