// Elements of the page, and canvases in the pixels of the screen.

export const byId = id => document.getElementById(id)

export function el (tag, attributes = {}, ...inside) {
  const made = Object.assign(document.createElement(tag), attributes)
  made.append(...inside)
  return made
}

export function svg (tag, attributes) {
  const made = document.createElementNS('http://www.w3.org/2000/svg', tag)
  for (const [name, value] of Object.entries(attributes)) made.setAttribute(name, value)
  return made
}

// Sets the text of an element, unless it is there: setting it would cost a layout.
export function setText (element, text) {
  if (element.textContent !== text) element.textContent = text
}

// Calls onMove for each move of the pointer until it is released, and then onEnd.
export function followPointer (onMove, onEnd) {
  const end = () => {
    removeEventListener('pointermove', onMove)
    removeEventListener('pointerup', end)
    removeEventListener('pointercancel', end)
    onEnd()
  }
  addEventListener('pointermove', onMove)
  addEventListener('pointerup', end)
  addEventListener('pointercancel', end)
}

// The size of a canvas on the page. Asking for it after changes would compute the layout, so it is
// kept until the canvas changes its size.
const sizes = new WeakMap()
const observer = new ResizeObserver(entries => {
  entries.forEach(({ target, contentRect }) => sizes.set(target, [contentRect.width, contentRect.height]))
})

// Clears a canvas. Returns its context, which draws in pixels of the page, and its sides.
export function cleared (canvas) {
  if (!sizes.has(canvas)) {
    sizes.set(canvas, [canvas.clientWidth, canvas.clientHeight])
    observer.observe(canvas)
  }
  const ratio = devicePixelRatio || 1
  const [wide, tall] = sizes.get(canvas)
  resize(canvas, Math.max(1, Math.round(wide * ratio)), Math.max(1, Math.round(tall * ratio)))
  const context = canvas.getContext('2d')
  context.setTransform(ratio, 0, 0, ratio, 0, 0)
  context.clearRect(0, 0, wide, tall)
  return [context, wide, tall]
}

// Gives a canvas its pixels. Setting them clears it, so it is left alone if it has them.
export function resize (canvas, width, height) {
  if (canvas.width !== width || canvas.height !== height) Object.assign(canvas, { width, height })
}

export const grey = value => 0xff000000 | value * 0x010101
