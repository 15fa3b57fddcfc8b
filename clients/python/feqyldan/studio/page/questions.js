// Questions in a dialog.
import { byId, el } from './dom.js'

// Asks for one of the choices, with an optional field. Resolves with the choice and the field's
// value; Escape is the last choice.
export function ask (title, words, choices, field = null) {
  const dialog = byId('question')
  // In a menu Enter would only open the menu.
  field?.addEventListener('keydown', event => {
    if (event.key !== 'Enter') return
    event.preventDefault()
    dialog.close(choices[0])
  })
  byId('question-title').textContent = title
  byId('question-words').textContent = words
  byId('question-field').replaceChildren(...(field ? [field] : []))
  byId('question-choices').replaceChildren(...choices.map(value => el('button', { value, textContent: value })))
  return new Promise(resolve => {
    dialog.returnValue = choices.at(-1)
    dialog.onclose = () => resolve([dialog.returnValue, field?.value ?? ''])
    dialog.showModal()
    const first = field ?? byId('question-choices').firstChild
    first.focus()
    first.select?.()
  })
}
