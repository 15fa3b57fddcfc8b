// Controls of the properties: each has a name, works by keyboard, and its edits can be undone.
import { el } from './dom.js'
import { textOf } from './values.js'

export class Controls {
  constructor (studio) { this.studio = studio }

  // A slider with a number beside it. The number may lie in a wider range than the slider.
  slider (id, [low, high], value, set, hard = [low, high], step = 1) {
    const range = el('input', { type: 'range', id, min: low, max: high, step, value: textOf(value) })
    const field = this.number(`${id}-n`, value, now => { range.value = now; set(now) }, hard, '', step === 1 ? 1 : 'any')
    range.oninput = event => this.studio.edit(() => { field.value = range.value; set(+range.value) }, id, event.timeStamp)
    range.onchange = () => this.studio.model.endGesture()
    field.addEventListener('change', () => { range.value = field.value })
    return el('div', { className: 'pair' }, range, field)
  }

  number (id, value, set, [low, high], title = '', step = 1) {
    const field = el('input', { type: 'number', id, value: textOf(value), min: low, max: high, step, title, required: true })
    if (title) field.setAttribute('aria-label', title)
    let before
    field.onfocus = () => { before = field.value }
    field.oninput = event => {
      if (field.checkValidity()) this.studio.edit(() => set(+field.value), id, event.timeStamp)
    }
    // The first digits of a number that isn't possible may be one that is.
    field.onchange = () => {
      if (field.checkValidity()) this.studio.model.endGesture()
      else {
        const kind = step === 1 ? 'a whole number' : 'a number'
        this.studio.giveUp(id, `${field.value || 'Nothing'} isn't possible here: give ${kind} from ${low} to ${high}`)
        field.value = before
      }
      before = field.value
    }
    return field
  }

  menu (id, values, now, set) {
    const menu = el('select', { id }, ...values.map(value => el('option', { value, textContent: wordFor(value) })))
    menu.value = textOf(now)
    menu.onchange = () => this.studio.edit(() => set(menu.value))
    return menu
  }

  check (id, now, words, set) {
    const box = el('input', { type: 'checkbox', id, checked: now })
    box.onchange = () => this.studio.edit(() => set(box.checked))
    return el('label', {}, box, ...words)
  }

  // Buttons of which one is pressed.
  segments (name, values, now, set) {
    const group = el('div', { className: 'seg', ariaLabel: name }, ...values.map(value => {
      const button = el('button', { textContent: value.toLowerCase(), onclick: () => this.studio.edit(() => set(value)) })
      button.setAttribute('aria-pressed', value === now)
      return button
    }))
    group.setAttribute('role', 'group')
    return group
  }
}

const wordFor = value => value === '' ? '–' : /^(UNDEFINED|REPLICATE)$/.test(value) ? value.toLowerCase() : value

// A control with its name.
export function row (name, control) {
  const target = control.id ? control : control.querySelector('input, select')
  const label = el('label', { className: 'name', textContent: name.replace('_', ' ') })
  if (target?.id) label.htmlFor = target.id
  control.querySelectorAll('input[type=number]:not([aria-label])').forEach(field => field.setAttribute('aria-label', name))
  return el('div', { className: 'row' }, label, control)
}

export function section (title, ...inside) {
  return el('section', {}, ...(title ? [el('h2', { textContent: title })] : []), ...inside)
}

// The ends of a plot's axis.
export function ticks ([low, high]) {
  return el('div', { className: 'ticks' }, el('span', { textContent: low }), el('span', { textContent: high }))
}

export function faultBox (fault) {
  const box = el('div', { className: 'fault' })
  box.setAttribute('role', 'alert')
  if (fault.code) box.append(el('b', { textContent: fault.operand ? `${fault.code} · ${fault.operand}` : fault.code }))
  box.append(fault.words)
  if (fault.advice && !fault.words.includes(fault.advice)) box.append(el('small', { textContent: fault.advice }))
  return box
}

// Names and values in a list, whose elements stay when only values change.
export function setFacts (list, facts) {
  const words = Object.entries(facts).flat().map(String)
  if (list.children.length !== words.length) {
    list.replaceChildren(...words.map((word, k) => el(k % 2 ? 'dd' : 'dt', { textContent: word })))
    return
  }
  words.forEach((word, k) => { if (list.children[k].textContent !== word) list.children[k].textContent = word })
}
