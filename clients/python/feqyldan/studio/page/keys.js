// Everything by keyboard.
import { byId, el } from './dom.js'

const WORDS = {
  '← → ↑ ↓': 'choose another image; in the picture, move it',
  'Page Up, Page Down': 'previous, next picture',
  '/': 'find a function; Enter adds it, Shift+Enter inserts it',
  '[  ]': 'lower, raise the limit (with Shift by 10)',
  O: 'overlay on the input',
  C: 'show dark pictures brighter',
  R: 'make the image a result, or virtual',
  P: 'go to the properties of what is chosen',
  Delete: 'remove the node',
  'Ctrl+Z, Ctrl+Shift+Z': 'undo, redo',
  'Ctrl+O, Ctrl+S, Ctrl+Shift+S': 'open, save, save as',
  '+  −  0  1': 'zoom the picture; fit; one to one'
}
const ARROWS = { ArrowLeft: [-1, 0], ArrowRight: [1, 0], ArrowUp: [0, -1], ArrowDown: [0, 1] }
const TYPED = 'input:not([type=range]):not([type=checkbox])'
const TEXT = `${TYPED}, select, textarea`
const OWN_UNDO = 'input[type=text], input[type=search]'
const ZOOM = 1.4

export class Keys {
  constructor (studio) {
    this.studio = studio
    const words = Object.entries(WORDS).flatMap(([key, word]) => [el('dt', { textContent: key }), el('dd', { textContent: word })])
    byId('keys').querySelector('dl').append(...words)
    byId('help').onclick = () => byId('keys').showModal()
    addEventListener('keydown', event => this.down(event))
    // A number is typed with several keys.
    addEventListener('keyup', ({ target }) => { if (!target.matches(TYPED)) studio.model.endGesture() })
  }

  down (event) {
    if (document.querySelector('dialog[open]') || event.altKey) return
    const command = event.ctrlKey || event.metaKey ? this.withControl(event) : this.plain(event)
    if (!command) return
    event.preventDefault()
    command()
  }

  withControl ({ key, shiftKey, target, repeat }) {
    const { studio } = this
    const letter = key.toLowerCase()
    // A text field has its own undo.
    if ('zy'.includes(letter) && target.matches(OWN_UNDO)) return null
    // A key that is held does it once. A name or a number that is being typed counts.
    const once = action => () => {
      if (target.matches(TYPED)) target.blur()
      if (!repeat) action()
    }
    return {
      z: () => shiftKey ? studio.redo() : studio.undo(),
      y: () => studio.redo(),
      s: once(() => shiftKey ? studio.files.saveAs() : studio.files.save()),
      o: once(() => studio.files.open())
    }[letter]
  }

  plain (event) {
    const { studio } = this
    const { key, target } = event
    if (key === 'PageUp' || key === 'PageDown') return () => studio.step(key === 'PageUp' ? -1 : 1)
    if (target.matches(TEXT)) return null
    if (key in ARROWS) return this.arrow(event)
    if (key === 'Enter' || key === ' ') return this.press(target)
    return this.letters()[key.length === 1 ? key.toLowerCase() : key]
  }

  arrow ({ key, target }) {
    const { studio } = this
    if (target.matches('input[type=range], #splitter')) return null
    if (target.id === 'large') return () => studio.viewer.nudge(...ARROWS[key])
    return () => {
      const next = studio.graph.neighbour(studio.chosen, ...ARROWS[key])
      studio.choose(next)
      studio.graph.cellOf(next)?.focus({ preventScroll: true })
    }
  }

  press ({ dataset }) {
    if (dataset?.cell !== undefined) return () => this.studio.choose(dataset.cell)
    return dataset?.node !== undefined ? () => this.studio.chooseNode(+dataset.node) : null
  }

  letters () {
    const { studio } = this
    const { viewer } = studio
    return {
      '/': () => byId('filter').focus(),
      Delete: () => studio.removeChosen(),
      Backspace: () => studio.removeChosen(),
      '[': () => studio.nudgeLimit(-1),
      ']': () => studio.nudgeLimit(1),
      '{': () => studio.nudgeLimit(-10),
      '}': () => studio.nudgeLimit(10),
      0: () => viewer.fit(),
      1: () => viewer.one(),
      '+': () => viewer.zoom(ZOOM),
      '=': () => viewer.zoom(ZOOM),
      '-': () => viewer.zoom(1 / ZOOM),
      o: () => viewer.overlay.click(),
      c: () => viewer.contrast.click(),
      r: () => studio.toggleResult(),
      p: () => byId('panel').querySelector('select, input')?.focus(),
      '?': () => byId('help').click()
    }
  }
}
