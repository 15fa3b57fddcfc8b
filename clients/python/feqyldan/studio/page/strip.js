// All pictures with one image of each, filled one after another while nothing else is to do.
import { call } from './api.js'
import { paintThumb } from './cards.js'
import { byId, el, setText } from './dom.js'
import { bytesOf } from './results.js'

const PATIENCE = 250

export class Strip {
  constructor (studio) {
    this.studio = studio
    Object.assign(this, { turn: 0, timer: 0 })
    const { pictures } = studio.about
    this.tiles = pictures.length < 2 ? [] : pictures.map((name, at) => this.tile(name, at))
    byId('strip').append(...this.tiles.map(({ root }) => root))
    this.mark()
  }

  tile (name, at) {
    const canvas = el('canvas')
    const count = el('span', { className: 'figures', title: 'samples that are not 0' })
    const words = el('span', {}, el('i', { textContent: name.replace(/\.\w+$/, '') }), count)
    const root = el('button', { title: name, onclick: () => this.studio.go(at) }, canvas, words)
    return { root, canvas, count, name, version: '' }
  }

  // Stops: the graph is about to run for the chosen picture, or another image is wanted.
  stop () {
    this.turn++
    clearTimeout(this.timer)
  }

  // Fills the tiles that are out of date, a moment later.
  fillSoon () {
    // A tile that is being filled may be of another image.
    this.stop()
    const version = this.version()
    this.tiles.forEach(tile => tile.root.classList.toggle('stale', tile.version !== version))
    this.timer = setTimeout(() => this.fill(), PATIENCE)
  }

  version () { return JSON.stringify([this.studio.model.contents, this.studio.viewed]) }

  async fill () {
    const mine = ++this.turn
    const name = this.studio.viewed
    const version = this.version()
    // The tiles after the chosen one come first. A graph that remembers pictures goes through all of
    // them once, from the first one on.
    const first = this.studio.result.remembers ? 0 : this.studio.at
    for (let k = 0; k < this.tiles.length; k++) {
      const at = (first + k) % this.tiles.length
      if (this.tiles[at].version === version || name === null) continue
      try {
        const reply = await call('strip', { contents: this.studio.model.contents, at, name })
        if (mine !== this.turn) return
        this.show(this.tiles[at], reply, version)
      } catch (error) {
        if (error.status !== 503) this.studio.say(error.message, true)
        return
      }
      if (mine !== this.turn || this.studio.runs.isRunning) return
    }
  }

  show (tile, reply, version) {
    const { root, canvas, count, name } = tile
    const isCounted = reply.marked !== null && reply.mask
    setText(count, reply.fault ? '⚠' : isCounted ? reply.marked.toLocaleString('en') : '')
    root.title = reply.fault ? `${name}: ${reply.fault}` : name
    root.classList.toggle('marked', isCounted && reply.marked > 0)
    root.classList.toggle('clean', isCounted && reply.marked === 0)
    root.setAttribute('aria-label', `${name}${isCounted ? `, ${reply.marked} marked samples` : ''}${reply.fault ? `: ${reply.fault}` : ''}`)
    if (reply.marked !== null) paintThumb(canvas, { width: reply.width, height: reply.height, bytes: bytesOf(reply.parts[reply.part]) })
    root.classList.remove('stale')
    tile.version = version
  }

  // Marks the chosen picture.
  mark () {
    this.tiles.forEach(({ root }, at) => {
      const isChosen = at === this.studio.at
      root.classList.toggle('chosen', isChosen)
      root.setAttribute('aria-current', isChosen)
      if (isChosen) root.scrollIntoView({ block: 'nearest', inline: 'nearest' })
    })
  }
}
