// Calls of the Python side. A reply with pictures is a head in JSON, and binary parts.

const KEY = 'feqyldan-studio-token'
const FILE = 'feqyldan-studio-file'
// The token comes in the fragment, which browsers never send. It is kept for reloads of this tab, and
// so is the name of the graph file.
const token = location.hash.slice(1)
if (token) {
  sessionStorage.setItem(KEY, token)
  sessionStorage.removeItem(FILE)
  history.replaceState(null, '', location.pathname)
}
// The address of another studio at the same port, which differs by the token alone.
addEventListener('hashchange', () => location.reload())

export const fileOfTab = () => sessionStorage.getItem(FILE) ?? ''
export const keepFileOfTab = name => sessionStorage.setItem(FILE, name)

export class CallError extends Error {
  constructor (status, words) {
    super(words)
    this.status = status
  }
}

export async function call (name, body = {}) {
  const reply = await sent(name, body)
  if (!reply.ok) throw new CallError(reply.status, (await reply.json()).error)
  if (reply.headers.get('Content-Type') === 'application/json') return reply.json()
  return unpacked(await reply.arrayBuffer())
}

async function sent (name, body) {
  try {
    return await fetch(`/api/${name}`, {
      method: 'POST',
      body: JSON.stringify(body),
      cache: 'no-store',
      credentials: 'omit',
      headers: { 'Content-Type': 'application/json', 'X-Studio-Token': sessionStorage.getItem(KEY) ?? '' }
    })
  } catch {
    throw new CallError(0, 'The studio has ended: start it again.')
  }
}

function unpacked (bytes) {
  const length = new DataView(bytes).getUint32(0, true)
  const head = JSON.parse(new TextDecoder().decode(new Uint8Array(bytes, 4, length)))
  head.parts = head.parts.map(([at, size]) => ({ buffer: bytes, at: 4 + length + at, size }))
  return head
}

const ARRAYS = { U8: Uint8Array, S16: Int16Array, U32: Uint32Array }

// Returns the samples in a binary part.
export function samplesOf (part, fmt) {
  const Kind = ARRAYS[fmt]
  return new Kind(part.buffer, part.at, part.size / Kind.BYTES_PER_ELEMENT)
}
