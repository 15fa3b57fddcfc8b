// The graph file: open another one, save, and save under another name.
import { call, keepFileOfTab } from './api.js'
import { byId, el } from './dom.js'
import { ask } from './questions.js'

const CHANGED = 409
// The statuses of a call after the studio has ended: there is none, or another one with its own token.
const ENDED = [0, 401]

// The milliseconds that the browser has for a download.
const PATIENCE = 60000

export class Files {
  constructor (studio) {
    this.studio = studio
    // What is being done; null if nothing is.
    this.last = null
    byId('open').onclick = () => this.open()
    byId('save').onclick = () => this.save()
    byId('save-as').onclick = () => this.saveAs()
    addEventListener('beforeunload', event => { if (studio.model.isModified) event.preventDefault() })
  }

  get name () { return this.studio.about.name }

  open () {
    const { about, model } = this.studio
    return this.inTurn(async () => {
      const graphs = await call('graphs')
      if (!graphs.length) { this.studio.say(`There is no graph file in ${about.folder} yet.`, true); return }
      const field = el('select', { ariaLabel: 'Graph file' }, ...graphs.map(name => el('option', { value: name, textContent: name })))
      if (graphs.includes(this.name)) field.value = this.name
      const lost = model.isModified ? ` The changes of ${this.name} aren't saved, and will be lost.` : ''
      const [choice, name] = await ask('Open a graph file', `The graph files in ${about.folder}.${lost}`, ['Open', 'Cancel'], field)
      if (choice !== 'Open') return
      this.take(await call('open', { name }))
      this.studio.begin()
    })
  }

  saveAs () {
    return this.inTurn(async () => {
      const field = el('input', { type: 'text', value: this.name, ariaLabel: 'Name of the file', spellcheck: false })
      const [choice, wish] = await ask('Save under another name', `In the folder ${this.studio.about.folder}.`, ['Save', 'Cancel'], field)
      if (choice !== 'Save' || !wish.trim()) return
      await this.write(wish.trim().endsWith('.json') ? wish.trim() : `${wish.trim()}.json`)
    })
  }

  save () { return this.inTurn(() => this.write(this.name)) }

  async write (name) {
    // The graph may be edited until the reply comes.
    const contents = structuredClone(this.studio.model.contents)
    const reply = await this.send(name, contents)
    if (!reply) return
    const { fault, ...file } = reply
    this.take(file)
    this.studio.model.markSaved(contents)
    this.studio.say(fault ? `Saved, but run refuses it: ${fault}` : `Saved ${file.name}`, !!fault)
    this.studio.bar()
  }

  // Takes what the Python side says of the file that this page has now.
  take (file) {
    Object.assign(this.studio.about, file)
    keepFileOfTab(file.name)
  }

  // Returns the reply, or null if the file isn't saved: the studio has ended, or a file that this page
  // doesn't know isn't to be replaced.
  async send (name, contents) {
    const told = { contents, name, stamp: name === this.name ? this.studio.about.stamp : null }
    try {
      return await call('save', told)
    } catch (error) {
      if (ENDED.includes(error.status) && isWhole(contents)) { await this.download(name, contents); return null }
      if (error.status !== CHANGED) throw error
      const [choice] = await ask('Replace the file?', `${error.message}.`, ['Replace', 'Cancel'])
      if (choice !== 'Replace') { this.studio.say(`Not saved: ${error.message}`, true); return null }
      return call('save', { ...told, sure: true })
    }
  }

  // Lets the browser save the file, because the studio can't any more.
  async download (name, contents) {
    this.studio.say('The studio has ended: start it again, and open the address that it prints.', true)
    const [choice] = await ask('The studio has ended', `It can't write ${name} any more. The browser can download it.`, ['Download', 'Cancel'])
    if (choice !== 'Download') return
    const href = URL.createObjectURL(new Blob([JSON.stringify(contents, null, 1)], { type: 'application/json' }))
    el('a', { href, download: name }).click()
    setTimeout(() => URL.revokeObjectURL(href), PATIENCE)
  }

  // Does one thing after another. A second save has the stamp that the first one gave the file, and a
  // file isn't opened while the one before it is saved.
  inTurn (action) {
    const last = (this.last ? this.last.then(action) : action())
      .catch(error => this.studio.say(error.message, true))
      .finally(() => { if (this.last === last) this.last = null })
    this.last = last
    return last
  }
}

// Whether contents have no field that only the Python side has.
function isWhole ({ objects }) {
  return Object.values(objects).every(told => Object.values(told).every(value => !value?.kept))
}
