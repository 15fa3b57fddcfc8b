// The functions, in groups. Typing finds one by its name, its OpenVX name or its description.
import { byId, el } from './dom.js'

const GROUPS = {
  Filter: ['gaussian3x3', 'median3x3', 'box3x3', 'convolve', 'sobel3x3'],
  Shape: ['dilate3x3', 'erode3x3'],
  Arithmetic: ['absdiff', 'add', 'subtract', 'multiply', 'min', 'max'],
  Point: ['threshold', 'table_lookup', 'convert_depth'],
  Bits: ['and_', 'or_', 'xor', 'not_'],
  Measure: ['histogram', 'min_max_loc', 'integral_image'],
  'Over pictures': ['accumulate', 'accumulate_square']
}
const NO_MATCH = 3

export class Palette {
  constructor (studio) {
    this.studio = studio
    this.filter = byId('filter')
    this.root = byId('functions')
    for (const [group, names] of Object.entries(GROUPS)) {
      this.root.append(el('div', {}, el('h2', { textContent: group }), ...names.map(name => this.button(name))))
    }
    this.root.append(this.objects())
    this.filter.oninput = () => this.find()
    this.filter.onkeydown = event => this.key(event)
  }

  button (name) {
    const { words, formats, openvx } = this.studio.about.functions[name]
    const title = `${words}\n${formats}. OpenVX: vx${openvx}Node.\nClick: add to the chosen image. Shift+click: insert after it.`
    const button = el('button', { textContent: name.replace(/_$/, ''), title })
    Object.assign(button.dataset, { name, find: `${name} ${openvx} ${words}`.toLowerCase() })
    button.onclick = event => this.add(name, event.shiftKey)
    return button
  }

  // Objects that no function makes.
  objects () {
    const { studio } = this
    const button = (name, title, onclick) => {
      const made = el('button', { textContent: name, title, onclick })
      Object.assign(made.dataset, { name, find: `${name} ${title}`.toLowerCase() })
      return made
    }
    return el('div', {}, el('h2', { textContent: 'Images' }),
      button('picture', 'Add a picture of a file, such as that of a good part', () => studio.addPicture()),
      button('delay', 'Keep the chosen image for the next picture', () => studio.addDelay()))
  }

  add (name, inserts) {
    this.clear()
    const made = this.root.querySelector(`[data-name="${name}"]`)
    if (name in this.studio.about.functions) this.studio.add(name, inserts)
    else made.click()
  }

  clear () {
    this.filter.value = ''
    this.find()
  }

  rank (button, wish) {
    const { name, find } = button.dataset
    return name.startsWith(wish) ? 0 : name.includes(wish) ? 1 : find.includes(wish) ? 2 : NO_MATCH
  }

  find () {
    const wish = this.filter.value.trim().toLowerCase()
    const buttons = [...this.root.querySelectorAll('button')]
    for (const button of buttons) {
      button.hidden = this.rank(button, wish) === NO_MATCH
      button.classList.remove('first')
    }
    for (const group of this.root.children) {
      group.hidden = [...group.querySelectorAll('button')].every(button => button.hidden)
    }
    const found = buttons.filter(button => !button.hidden)
    this.first = wish ? found.sort((one, other) => this.rank(one, wish) - this.rank(other, wish))[0] : null
    this.first?.classList.add('first')
  }

  key (event) {
    if (event.key === 'Enter' && this.first) {
      this.add(this.first.dataset.name, event.shiftKey)
      event.preventDefault()
    } else if (event.key === 'Escape') this.clear()
    else return
    this.filter.blur()
  }
}
